#!/usr/bin/env python3
"""What the built program keeps in its journal, what it makes of one that it finds, and what is left of it after a crash.

It runs behind `rt ci`, which builds crates/world_server/out/world_server. What is compared with comes from oracle/journal_reader.py, a reader written
from docs/formats.md alone. Runs are made at once and in pieces; journals are damaged, and the program has to answer as the reader does, within limits
of memory and time; and runs are killed, whose journals have to stand for what was printed, and to be gone on with.
"""

import os
import random
import resource
import struct
import subprocess
import sys
import tempfile
import time

TOP = os.path.dirname(os.path.dirname(os.path.abspath(__file__)))
sys.path[:0] = [os.path.join(TOP, it) for it in ("oracle", "checks/harness")]
from checked_program import PROGRAM, Checks, content_of, shown, write_files  # noqa: E402
from journal_reader import ACCEPTED, SECOND, SITE, Bytes, NotAJournal, Thing, framed, is_empty, lines_of, read, start_line, tick_lines  # noqa: E402
from worlds import SMALL, base_content, bytes_of, played, text_of  # noqa: E402

MIB = 1 << 20
MOST_MEMORY, MOST_SECONDS = 256 * MIB, 20
SEED = 11
PIECES, PIECED_TICKS = 50, 200
KILLS, LEAST_KILLS, KILLED_TICKS, KILLS_OF_JOURNAL = 200, 100, 80, 15
# (a machine that does much else has more time for the least of them)
SECONDS_OF_KILLS, MOST_SECONDS_OF_KILLS = 60, 240
BESIDE_TICKS, SHOWS_BESIDE, SHOWS_BEFORE_REPLAY, MOST_RUNS_BESIDE = 2_000, 200, 10, 40
FILES = ("world.json", "uploads.bin", "journal.bin")
SAMPLES = {"small": 40, "two_rooms": 60, "one_player": 60, "harvest": 200, "walk": 60, "fight": 40, "colonies": 200}
PLACE = "/dev/shm" if os.path.isdir("/dev/shm") else None

checks = Checks(__file__)
note = checks.note
draw = random.Random(SEED)


# ---- the program


def limit():
    resource.setrlimit(resource.RLIMIT_AS, (MOST_MEMORY, MOST_MEMORY))


def called(words, folder, **others):
    """How the program ends, what it prints and what it says."""
    try:
        done = subprocess.run([PROGRAM, *words], cwd=folder, stdin=subprocess.DEVNULL, capture_output=True, timeout=MOST_SECONDS, **others)
    except subprocess.TimeoutExpired:
        return f"none in {MOST_SECONDS} seconds", b"", b""
    return done.returncode, done.stdout, done.stderr


def words_of(ticks):
    return ["run", *FILES, "--ticks", str(ticks)]


def ran(folder, ticks, **others):
    """How a run ends, what it prints and what it says, and the journal that it leaves."""
    found = called(words_of(ticks), folder, **others)
    path = os.path.join(folder, FILES[2])
    return *found, content_of(path) if os.path.exists(path) else b""


def forget_journal(folder):
    path = os.path.join(folder, FILES[2])
    if os.path.exists(path):
        os.remove(path)


def kept(folder, journal):
    write_files(folder, {FILES[2]: journal})


class Modules:
    """Which bytes are modules that a player may have: what the program's check says of them."""

    def __init__(self):
        self.known = {}

    def __call__(self, content):
        if content not in self.known:
            with tempfile.TemporaryDirectory(dir=PLACE) as folder:
                write_files(folder, {"it.wasm": content})
                self.known[content] = called(["check", "it.wasm"], folder)[:2] == (0, b"accepted\n")
        return self.known[content]


is_module = Modules()


def made(seed, rooms):
    """The world file of a number, and its upload stream."""
    with tempfile.TemporaryDirectory() as folder:
        return [called(["gen", str(seed), str(rooms), part], folder)[1] for part in ("world", "uploads")]


def journal_of(world, uploads, ticks):
    with tempfile.TemporaryDirectory(dir=PLACE) as folder:
        write_files(folder, {FILES[0]: world, FILES[1]: uploads})
        status, out, err, journal = ran(folder, ticks)
    note(f"a run of {ticks} ticks for a journal", [] if (status, err) == (0, b"") else [f"exit status {status}, standard error {shown(err)}"])
    return out, journal


def found_in(name, journal):
    """The journal as the reader has it, or None where it is none."""
    try:
        found = read(journal, is_module)
    except NotAJournal as it:
        note(name, [f"the journal of {len(journal)} bytes is refused: {it}"])
        return None
    if found is None:
        note(name, ["the journal is empty"])
    return found


# ---- sizes


def check_sizes():
    """The journals of the small world, byte by byte by their lengths."""
    steps = (
        (0, b"start tick 0 rooms 1 objects 2 players 0\n", 2658),
        (1, b"start tick 0 rooms 1 objects 2 players 0\ntick 1 objects 2 intents 0 energy 2499\n", 2808),
        (1, b"start tick 1 rooms 1 objects 2 players 0\ntick 2 objects 2 intents 0 energy 2498\n", 2958),
    )
    with tempfile.TemporaryDirectory() as folder:
        write_files(folder, {FILES[0]: bytes_of(SMALL), FILES[1]: b""})
        for number, (ticks, lines, length) in enumerate(steps):
            if number == 1:
                forget_journal(folder)
            status, out, err, journal = ran(folder, ticks)
            wanted = (0, lines, b"", length)
            found = (status, out, err, len(journal))
            note(f"the small world, run {number}", [] if found == wanted else [f"{shown(found)}, wanted {shown(wanted)}"])
            is_base = journal.startswith(framed(base_content(SMALL))[:-1])
            note(f"the small world, the base of run {number}", [] if is_base else ["it is another"])


# ---- worlds and lines


def check_lines():
    """The worlds that the reader finds have the numbers that the run printed, in every tick."""
    runs = {"gen 7 2": (*made(7, 2), 300), "gen 3 9": (*made(3, 9), 60)}
    for name, ticks in SAMPLES.items():
        paths = [os.path.join(TOP, f"worlds/{name}.{kind}") for kind in ("json", "uploads")]
        runs[name] = (content_of(paths[0]), content_of(paths[1]) if os.path.exists(paths[1]) else b"", ticks)
    for name, (world, uploads, ticks) in runs.items():
        out, journal = journal_of(world, uploads, ticks)
        found = found_in(f"the lines of {name}", journal)
        if not found:
            continue
        lines, printed = lines_of(found).splitlines(), out.decode().splitlines()
        faults = [f"line {at}: printed {one!r}, in the journal {other!r}" for at, (one, other) in enumerate(zip(printed, lines)) if one != other]
        faults += [] if len(lines) == len(printed) else [f"{len(printed)} lines, in the journal {len(lines)}"]
        note(f"the lines of {name}", faults, ticks + 1)
        note(f"the end of the journal of {name}", [] if found.gate == len(journal) - 1 else [f"{len(journal) - 1 - found.gate} bytes behind the closed gate"])
        note(f"what is recorded of {name}", list(unchanged_in(found)), ticks)


def unchanged_in(found):
    """What stands in a tick though it is as before."""
    for before, record in zip(found.worlds, found.records):
        for it in record.rooms:
            if before.rooms[it.index] == it:
                yield f"tick {record.tick}: room {it.index} didn't change"
        for it in record.accounts:
            if before.accounts[it.player] == it:
                yield f"tick {record.tick}: the account of player {it.player} didn't change"


# ---- pieces


def check_pieces():
    """The same ticks at once and in pieces: one file, and lines that are those of the ticks. Some pieces find bytes behind the closed gate."""
    world, uploads = made(7, 2)
    out, whole = journal_of(world, uploads, PIECED_TICKS)
    found = found_in("the run at once", whole)
    if not found:
        return
    for number in range(PIECES):
        cuts = sorted(draw.randint(0, PIECED_TICKS) for _ in range(draw.randint(1, 5)))
        with tempfile.TemporaryDirectory(dir=PLACE) as folder:
            write_files(folder, {FILES[0]: world, FILES[1]: uploads})
            faults = list(piece_faults(folder, found, [0, *cuts, PIECED_TICKS]))
            journal = content_of(os.path.join(folder, FILES[2]))
        faults += [] if journal == whole else [f"a journal of {len(journal)} bytes, and not that of {len(whole)} at once"]
        note(f"pieces that end at {cuts}", faults)


def piece_faults(folder, found, ends):
    """What is wrong of the runs from each of these ticks to the next."""
    path = os.path.join(folder, FILES[2])
    for first, last in zip(ends, ends[1:]):
        if os.path.exists(path) and draw.random() < 0.3:
            with open(path, "ab") as it:
                it.write(draw.randbytes(draw.choice((1, 99, 1 << 18))))
        lines = start_line(found.worlds[first]) + "".join(map(tick_lines, found.records[first:last], found.worlds[first + 1 : last + 1]))
        wanted = (0, lines.encode(), b"")
        said = called(words_of(last - first), folder)
        if said != wanted:
            yield f"from tick {first} to {last}: {shown(said)}, wanted {shown(wanted)}"


# ---- damaged journals


class Noting(Bytes):
    """Notes where the numbers of entries stand."""

    def __init__(self, content):
        super().__init__(content)
        self.places = []

    def list(self, read_one):
        self.places.append(self.at)
        return super().list(read_one)


def counts_of(content):
    """The places of the numbers of entries in a tick's content, and of the length of its first upload."""
    it = Noting(content)
    it.bytes(9)
    for read_one in (it.upload, it.run, it.account, it.room):
        it.list(read_one)
    return it.places + ([18] if content[9:13] != bytes(4) else [])


def counts_of_base(content, rooms):
    it = Noting(content)
    it.bytes(20)
    for _ in range(rooms):
        it.bytes(2508)
        it.room()
    it.list(it.account)
    return [16, *it.places]


def with_bytes(content, at, piece):
    return content[:at] + piece + content[at + len(piece) :]


def split(journal):
    """The contents of a journal."""
    contents, at = [], 0
    while journal[at]:
        (length,) = struct.unpack_from("<Q", journal, at + 1)
        contents.append(journal[at + 9 : at + 9 + length])
        at += 9 + length
    return contents


def gates_of(contents):
    places = [0]
    for content in contents:
        places.append(places[-1] + 9 + len(content))
    return places


def changed_bytes(journal, contents):
    """Bytes that are others: the gates, the lengths, the fronts of contents, and some of all others."""
    places = {at + more for at in gates_of(contents) for more in range(36) if at + more < len(journal)}
    places |= set(draw.sample(range(len(journal)), 120))
    ticks = gates_of(contents)[1]
    places |= set(draw.sample(range(ticks, len(journal)), min(300, len(journal) - ticks)))
    for at in sorted(places):
        other = draw.choice([value for value in (0, 1, 255, journal[at] ^ 1 << draw.randrange(8), draw.randrange(256)) if value != journal[at]])
        yield f"byte {at} is {other}", with_bytes(journal, at, bytes([other]))


def cuts(journal, contents):
    """Lengths that are less."""
    near = {at + more for at in gates_of(contents) for more in (-1, 0, 1, 2, 8, 9, 10)}
    for length in sorted(it for it in near | set(draw.sample(range(len(journal)), 100)) | {0, 1, 2} if 0 <= it < len(journal)):
        yield f"{length} bytes", journal[:length]


def rearranged(contents, others):
    """Frames that are exchanged, doubled, left out, or those of another journal."""
    numbers = range(len(contents))
    for one in numbers:
        yield f"frame {one} twice", framed(*contents[: one + 1], *contents[one:])
        yield f"frame {one} left out", framed(*contents[:one], *contents[one + 1 :])
        yield f"a frame without bytes before frame {one}", framed(*contents[:one], b"", *contents[one:])
        for other in numbers[one + 1 :]:
            exchanged = list(contents)
            exchanged[one], exchanged[other] = contents[other], contents[one]
            yield f"frames {one} and {other} exchanged", framed(*exchanged)
    for name, strange in others.items():
        yield f"the journal of {name}", framed(*strange)
        for one in range(min(len(contents), len(strange))):
            yield f"frame {one} is that of {name}", framed(*contents[:one], strange[one], *contents[one + 1 :])
            yield f"frames from {one} on are those of {name}", framed(*contents[:one], *strange[one:])


def gated(contents):
    """Gates that are open and closed, in all ways, and open ones of other bytes."""
    count = len(contents) + 1
    for mask in range(1 << count):
        gates = [mask >> place & 1 for place in range(count)]
        yield f"the gates {gates}", framed(*contents, gates=gates)
    for place in range(count):
        yield f"gate {place} is 255", framed(*contents, gates=[255 if one == place else int(one < len(contents)) for one in range(count)])
    yield "the gates 2", framed(*contents, gates=[2] * len(contents) + [0])
    yield "bytes behind the closed gate", framed(*contents) + b"\1" + bytes(8)


def promising(contents):
    """Numbers of entries and lengths that promise more than there is."""
    journal, numbers = framed(*contents), ((1 << 32) - 1, (1 << 31) - 1, 1 << 24)
    for place, content in enumerate(contents):
        places = counts_of(content) if place else counts_of_base(content, struct.unpack_from("<I", content, 16)[0])
        for at in places:
            for number in numbers:
                it = with_bytes(content, at, struct.pack("<I", number))
                yield f"frame {place} promises {number} at {at}", framed(*contents[:place], it, *contents[place + 1 :])
    for at in gates_of(contents)[:-1]:
        for length in (0, 1, len(journal) - at - 10, len(journal) - at - 9, 1 << 32, 1 << 40, (1 << 62) + 1, (1 << 63) - 1, 1 << 63, (1 << 64) - 9, (1 << 64) - 1):
            yield f"the frame at {at} promises {length} bytes", with_bytes(journal, at + 1, struct.pack("<Q", length))


def room_bytes(room):
    things = b"".join(struct.pack("<QBBBIIQIIQIIB", *it[:-1], len(it.body)) + it.body for it in room.things)
    return struct.pack("<III", room.index, room.next, len(room.things)) + things


def with_things(room, one, **fields):
    return room._replace(things=[it._replace(**fields) if it == one else it for it in room.things])


def sites(world, room, count):
    """The room with so many sites of player 1."""
    ground, taken = world.grounds[room.index], {(it.x, it.y) for it in room.things}
    tiles = [(x, y) for y in range(1, 49) for x in range(1, 49) if ground[50 * y + x] != 1 and (x, y) not in taken][:count]
    new = [Thing(room.index * SECOND + room.next + at, SITE, x, y, 1, 0, 0, 0, 8, 0, 0, 0, b"") for at, (x, y) in enumerate(tiles)]
    return room._replace(next=room.next + count, things=[*room.things, *new])


def other_rooms(world, room):
    """Rooms that a tick might have recorded, most of which break a rule."""
    for it in room.things:
        for fields in ({"x": 0}, {"y": 49}, {"x": 50}, {"owner": 9}, {"owner": 0}, {"hits": 0}, {"hits": it.hits + 5001}, {"energy": 1 << 40}, {"timer": 1501}):
            yield f"{it.id} with {fields}", with_things(room, it, **fields)
        for fields in ({"extra": 501}, {"progress": 7}, {"other": 1}, {"other_ticks": 1}, {"body": b""}, {"body": bytes([1] * 50)}, {"body": b"\x09"}, {"kind": 11}):
            yield f"{it.id} with {fields}", with_things(room, it, **fields)
        for fields in ({"id": it.id + 100}, {"id": it.id + SECOND}, {"id": 1 << 60}, {"id": 0}):
            yield f"{it.id} with {fields}", with_things(room, it, **fields)
        for kind in range(0, 12):
            yield f"{it.id} as kind {kind}", with_things(room, it, kind=kind)
        for other in room.things:
            yield f"{it.id} on the tile of {other.id}", with_things(room, it, x=other.x, y=other.y)
    for next_serial in (0, 1, room.next - 1, room.next + 1, (1 << 32) - 1):
        yield f"the next serial {next_serial}", room._replace(next=next_serial)
    for count in (99, 100, 101):
        yield f"{count} sites", sites(world, room, count)
    yield "no objects", room._replace(things=[])
    yield "objects in another order", room._replace(things=room.things[::-1])
    yield "another room's index", room._replace(index=1 - room.index)
    yield "no room's index", room._replace(index=len(world.rooms))


def broken(found, contents):
    """Ticks with other rooms, with other uploads, and of others than the players."""
    last, record = contents[-1], found.records[-1]
    at = last.rindex(room_bytes(record.rooms[-1]))
    for name, room in other_rooms(found.worlds[-1], record.rooms[-1]):
        yield f"the last tick has {name}", framed(*contents[:-1], last[:at] + room_bytes(room))
    first = contents[1]
    for player in (0, 3, 9):
        yield f"an upload of player {player}", framed(contents[0], with_bytes(first, 13, struct.pack("<I", player)), *contents[2:])
    for result in range(12):
        yield f"an upload with the result {result}", framed(contents[0], with_bytes(first, 17, bytes([result])), *contents[2:])
    (length,) = struct.unpack_from("<I", first, 18)
    for module in (b"", first[22 : 22 + length - 1], first[22 : 22 + length] + b"\0", b"\0asm\1\0\0\0", bytes(MIB), bytes(MIB + 1)):
        for result in (ACCEPTED, 4):
            it = first[:17] + bytes([result]) + struct.pack("<I", len(module)) + module + first[22 + length :]
            yield f"an upload of {len(module)} bytes with the result {result}", framed(contents[0], it, *contents[2:])


def difference(one, other):
    """Where two contents differ first, and the bytes that they have there."""
    at = next((at for at, (here, there) in enumerate(zip(one, other)) if here != there), min(len(one), len(other)))
    return (at, *(content[at] if at < len(content) else "none" for content in (one, other)))


def answers_of(journal, base):
    """What a run of no tick on this disk has to print and say, and the files that it may leave."""
    if is_empty(journal):
        whole = framed(base)
        return (0, start_line(read(whole).worlds[0]).encode(), b""), (whole,)
    try:
        found = read(journal, is_module)
    except NotAJournal as it:
        return (8, b"", f"fault 8 NotAJournal {it.at}\n".encode()), (journal,)
    stands = journal[: found.gate + 1]
    if found.base == base:
        return (0, start_line(found.worlds[-1]).encode(), b""), (stands,)
    line = "fault 9 OtherWorld {} {} {}\n".format(*difference(found.base, base))
    # (what follows the closed gate may be cut off)
    return (9, b"", line.encode()), (journal, stands)


def check_damaged():
    """Damaged journals: what the program makes of each is what the reader says of it. A content that its readers answer Malformed is a frame that
    fails."""
    world, uploads = made(7, 2)
    _, whole = journal_of(world, uploads, 4)
    found = found_in("a journal to damage", whole)
    if not found:
        return
    contents = split(whole)
    others = {"another seed": split(journal_of(*made(8, 2), 4)[1]), "fewer rooms": split(journal_of(*made(7, 1), 4)[1])}
    others["other uploads"] = split(journal_of(world, b"", 4)[1])
    damages = [("none", whole), *changed_bytes(whole, contents), *cuts(whole, contents), *rearranged(contents, others), *gated(contents)]
    damages += [*promising(contents), *broken(found, contents)]
    statuses = {}
    with tempfile.TemporaryDirectory(dir=PLACE) as folder:
        write_files(folder, {FILES[0]: world, FILES[1]: uploads})
        for name, journal in damages:
            wanted, files = answers_of(journal, contents[0])
            kept(folder, journal)
            *said, left = ran(folder, 0, preexec_fn=limit)
            faults = [] if tuple(said) == wanted else [f"{shown(tuple(said))}, wanted {shown(wanted)}"]
            faults += [] if left in files else [f"{len(left)} bytes are left of {len(journal)}, which are others than they may be"]
            note(f"a damaged journal: {name}", faults)
            statuses[wanted[0]] = statuses.get(wanted[0], 0) + 1
    print(f"{checks.path}: of {len(damages)} damaged journals {statuses.get(0, 0)} stand, {statuses.get(8, 0)} are none, {statuses.get(9, 0)} are of another world")
    few = {status: count for status, count in ((status, statuses.get(status, 0)) for status in (0, 8, 9)) if count < 20}
    note("damages of all sorts", [f"{count} of status {status}" for status, count in few.items()])


# ---- killed runs


def killed(folder, ticks, seconds):
    """Starts a run of so many ticks and kills it after some seconds: whether it was still running, and what it printed."""
    with open(os.path.join(folder, "lines"), "w+b") as sink:
        run = subprocess.Popen([PROGRAM, *words_of(ticks)], cwd=folder, stdin=subprocess.DEVNULL, stdout=sink, stderr=subprocess.DEVNULL)
        time.sleep(seconds)
        run.kill()
        status = run.wait(timeout=MOST_SECONDS)
        sink.seek(0)
        return status < 0, sink.read()


def left_faults(before, journal, printed):
    """What is wrong of what a killed run left, before which the journal was this one: what stood stands, and what was printed, and one tick more at most."""
    earlier = read(before, is_module)
    try:
        found = read(journal, is_module)
    except NotAJournal as it:
        return [f"the journal of {len(journal)} bytes is refused: {it}"]
    if found is None:
        return ([f"what stood is gone, {len(earlier.records)} ticks"] if earlier else []) + ([f"nothing is left of {shown(printed)}"] if printed else [])
    first = len(earlier.records) if earlier else 0
    faults = [] if not earlier or journal.startswith(before[: earlier.gate]) else ["what stood has changed"]
    if len(found.records) < first:
        return [*faults, f"{len(found.records)} ticks are left of {first}"]
    lines = [start_line(found.worlds[first]), *map(tick_lines, found.records[first:], found.worlds[first + 1 :])]
    is_told = "".join(lines).encode().startswith(printed)
    faults += [] if is_told else [f"printed {shown(printed)}, and the journal has {shown(''.join(lines).encode())}"]
    # (a tick is printed as soon as it stands)
    is_close = len("".join(lines[:-1]).encode()) <= len(printed)
    return faults + ([] if is_close or not is_told else [f"{len(lines) - 1} ticks stand, of which the lines are {shown(printed)}"])


def seconds_of(folder, ticks):
    """How long a run of no tick takes, and one tick more."""
    taken = []
    for count in (0, ticks):
        forget_journal(folder)
        start = time.perf_counter()
        ran(folder, count)
        taken.append(time.perf_counter() - start)
    return taken[0], max(0.0, taken[1] - taken[0]) / ticks


def check_killed():
    """Runs that are killed at random moments, each on what the one before left."""
    world, uploads = made(7, 2)
    hit, since = 0, time.perf_counter()
    with tempfile.TemporaryDirectory() as folder:
        write_files(folder, {FILES[0]: world, FILES[1]: uploads})
        start, each = seconds_of(folder, KILLED_TICKS)
        while hit < KILLS and time.perf_counter() - since < (SECONDS_OF_KILLS if hit >= LEAST_KILLS else MOST_SECONDS_OF_KILLS):
            hit += check_killed_journal(folder, world, uploads, start, each)
    note("runs that were killed", [] if hit >= LEAST_KILLS else [f"{hit} in {MOST_SECONDS_OF_KILLS} seconds"])


def check_killed_journal(folder, world, uploads, start, each):
    """Some killed runs on one journal, and a last one that is not, behind which the file is that of one run: how many were killed."""
    forget_journal(folder)
    journal, hit, path = b"", 0, os.path.join(folder, FILES[2])
    for number in range(KILLS_OF_JOURNAL):
        ticks = draw.randint(1, KILLED_TICKS)
        is_hit, printed = killed(folder, ticks, draw.uniform(0, start + ticks * each))
        before, journal = journal, content_of(path) if os.path.exists(path) else b""
        faults = left_faults(before, journal, printed)
        note(f"a run that was killed, number {number} of its journal", faults)
        hit += is_hit
        if faults:
            return hit
    ended = ran(folder, 1)
    found = found_in("the run behind those that were killed", ended[3])
    if found:
        count = len(found.records)
        faults = [] if (ended[0], ended[2]) == (0, b"") else [f"exit status {ended[0]}, standard error {shown(ended[2])}"]
        faults += [] if ended[3] == journal_of(world, uploads, count)[1] else [f"the file isn't that of a run of {count} ticks at once"]
        note(f"the run behind those that were killed, to tick {count}", faults)
    return hit


# ---- a journal that a run adds to


def printed_ticks(path):
    """How many ticks have their line, whole, in what a run has printed."""
    with open(path, "rb") as it:
        return it.read().count(b"\n") - 1


def shown_beside(folder, steps, lines, with_replay):
    """What is wrong of a show of the last tick that was printed so far, or of a replay."""
    ticks = printed_ticks(lines)
    if with_replay:
        status, out, err = called(["replay", FILES[2]], folder)
        many = out.split()
        is_right = (status, err, many[:1]) == (0, b"", [b"replayed"]) and int(many[1]) >= ticks
        return [] if is_right else [f"behind {ticks} ticks: exit status {status}, {shown(out)}, {shown(err)}"]
    found = called(["show", FILES[2], str(ticks)], folder)
    wanted = (0, text_of(steps[ticks - 1].world if ticks else SMALL) + b"\n", b"")
    return [] if found == wanted else [f"of tick {ticks}: {shown(found)}, wanted {shown(wanted)}"]


def check_beside():
    """Shows and replays of a journal beside the run that adds to it, begun behind its opening line: each tick whose line was printed is there, and nothing
    says that it is no journal. Where a run is done too soon another one is begun."""
    steps, shows, runs = played(SMALL, BESIDE_TICKS), 0, 0
    while shows < SHOWS_BESIDE and runs < MOST_RUNS_BESIDE:
        runs += 1
        with tempfile.TemporaryDirectory() as folder:
            write_files(folder, {"world.json": bytes_of(SMALL), "uploads.bin": b"", "lines": b""})
            lines = os.path.join(folder, "lines")
            with open(lines, "wb") as sink:
                run = subprocess.Popen([PROGRAM, *words_of(BESIDE_TICKS)], cwd=folder, stdin=subprocess.DEVNULL, stdout=sink, stderr=subprocess.DEVNULL)
            while printed_ticks(lines) < 0:
                time.sleep(0.001)
            while run.poll() is None and shows < SHOWS_BESIDE:
                shows += 1
                note(f"show {shows} beside a run", shown_beside(folder, steps, lines, False))
                if shows % SHOWS_BEFORE_REPLAY == 0:
                    note(f"a replay beside a run, behind show {shows}", shown_beside(folder, steps, lines, True))
            run.kill()
            run.wait()
    note(f"{SHOWS_BESIDE} shows are made beside runs", [] if shows == SHOWS_BESIDE else [f"{shows} in {runs} runs"])


def main():
    check_sizes()
    check_lines()
    check_pieces()
    check_damaged()
    check_beside()
    check_killed()
    checks.finish()


if __name__ == "__main__":
    main()
