#!/usr/bin/env python3
"""How the built program meets the system: which folder it syncs and when, how it opens what it only reads, and that inputs which come in pieces, an
output that goes in pieces, and a reader who is slow make the same output and the same journal.

It runs behind `rt ci`, which builds crates/world_server/out/world_server. What is compared with comes from oracle/worlds.py. Opens, syncs and short
writes are told and made by `strace`, where it is installed and may trace.
"""

import contextlib
import fcntl
import os
import random
import re
import subprocess
import sys
import tempfile
import threading
import time

TOP = os.path.dirname(os.path.dirname(os.path.abspath(__file__)))
sys.path[:0] = [os.path.join(TOP, it) for it in ("oracle", "checks/harness")]
from bounded_calls import FILES, JOURNAL, UPLOADS, WORLD, words_of  # noqa: E402
from checked_program import PROGRAM, Checks, content_of, shown, write_files  # noqa: E402
from failing_calls import may_trace, of_nobody  # noqa: E402
from game import SECOND, thing  # noqa: E402
from module_bytes import module  # noqa: E402
from worlds import SMALL, bytes_of, journal_of, output_of, played, room, stream_of, text_of, world  # noqa: E402

checks = Checks(__file__)
note = checks.note

SEED = 5
TICKS = 3
MOST_SECONDS = 120
LEAST_PIPE = 4096
draw = random.Random(SEED)


def long_world(rooms=30):
    """A world whose file is longer than a pipe holds."""
    piles = [[thing("pile", n * SECOND + k, k, 3, energy=10**6) for k in range(1, 25)] for n in range(rooms)]
    return world(*[room(f"E{n % 20}S{n // 20}", 30, *it) for n, it in enumerate(piles)])


def left_at(path):
    return content_of(path) if os.path.exists(path) else None


def differs(found, wanted):
    return [] if found == wanted else [f"{shown(found)}, wanted {shown(wanted)}"]


# ---- what is called


class Made:
    """A call of the system: its kind, its words, the path of the file that it is about, and its answer."""

    FORM = re.compile(r"(?:\d+ +)?(\w+)\((.*)\) += (-?\d+)(?:<([^>]*)>)?")

    def __init__(self, line):
        self.kind, self.words, answer, opened = self.FORM.match(line).groups()
        self.answer = int(answer)
        about = re.match(r"(?:AT_FDCWD|\d+)<([^>]*)>", self.words)
        self.path = opened if self.kind in ("open", "openat", "openat2", "creat") else about and about[1]

    def flags(self):
        return set(re.findall(r"\bO_\w+", self.words))

    def asked(self):
        """How many bytes a read or a write is about."""
        numbers = self.words.split(", ")
        return int(numbers[-2] if self.kind.startswith("p") else numbers[-1])


def traced(words, folder, *options, stdout=subprocess.PIPE):
    """Runs the program under strace: its exit status, standard output and standard error, and the calls that were traced."""
    trace = os.path.join(folder, "trace")
    command = ["strace", "-f", "-y", "-qq", "-s", "4", "-o", trace, *options, PROGRAM, *words]
    done = subprocess.run(command, cwd=folder, stdin=subprocess.DEVNULL, stdout=stdout, stderr=subprocess.PIPE, timeout=MOST_SECONDS)
    with open(trace, encoding="utf-8", errors="replace") as it:
        calls = [Made(line) for line in it.read().splitlines() if Made.FORM.match(line)]
    os.remove(trace)
    return (done.returncode, done.stdout, done.stderr), calls


OPENS, SYNCS, WRITES = "open,openat,creat", "fsync,fdatasync", "write,pwrite64,writev,pwritev"
CHANGES = (*WRITES.split(","), "ftruncate", "fallocate")


# ---- the folder that is synced


def folder_faults(calls, journal):
    """What is wrong of the order of these calls: the journal is made, then its folder is synced, and no other one, and then it is written."""
    folder = os.path.dirname(journal)
    opened = [at for at, call in enumerate(calls) if call.path == journal and "O_CREAT" in call.flags()]
    synced = [at for at, call in enumerate(calls) if call.kind in SYNCS.split(",") and call.path and os.path.isdir(call.path)]
    written = [at for at, call in enumerate(calls) if call.kind in CHANGES and call.path == journal]
    places = [calls[at].path for at in synced]
    faults = [] if places == [folder] else [f"the folders that are synced are {places}, wanted {[folder]}"]
    faults += [] if opened else ["the journal is not made by O_CREAT"]
    faults += ["the journal is cut as it is opened"] if any("O_TRUNC" in calls[at].flags() for at in opened) else []
    if faults or not written:
        return faults or ["the journal is never written"]
    return [] if opened[0] < synced[0] < written[0] else [f"opened at call {opened[0]}, its folder synced at {synced[0]}, written first at {written[0]}"]


def check_folders(folder):
    """The folder of the journal is synced wherever it stands, whether it was there before or not."""
    steps = played(SMALL, TICKS)
    wanted = (0, output_of(SMALL, steps), b"")
    os.makedirs(os.path.join(folder, "one/two"))
    os.symlink("one", os.path.join(folder, "link"))
    write_files(folder, {WORLD: bytes_of(SMALL), UPLOADS: b"", "one/world.json": bytes_of(SMALL)})
    paths = {
        "without a folder": JOURNAL,
        "of the folder itself": "./" + JOURNAL,
        "in a folder": "one/" + JOURNAL,
        "in a folder of a folder": "one/two/" + JOURNAL,
        "with slashes twice": "one//two//" + JOURNAL,
        "from the root": os.path.join(os.path.realpath(folder), "one/" + JOURNAL),
        "through the folder above": "one/../" + JOURNAL,
        "through a link": "link/" + JOURNAL,
        "with a name that begins with a point": "one/.journal",
    }
    for what, path in paths.items():
        whole = os.path.realpath(os.path.join(folder, path))
        for has_file in (False, True):
            if os.path.exists(whole):
                os.remove(whole)
            if has_file:
                write_files(folder, {path: b""})
            found, calls = traced(words_of(TICKS, [*FILES[:2], path]), folder, "-e", f"trace={OPENS},{SYNCS},{','.join(CHANGES)}")
            faults = differs((*found, left_at(whole)), (*wanted, journal_of(SMALL, steps)))
            note(f"a journal's path {what}, {'there' if has_file else 'made'}", faults + folder_faults(calls, whole))
        found, calls = traced(words_of(0, [*FILES[:2], path]), folder, "-e", f"trace={SYNCS}")
        places = [call.path for call in calls if call.path and os.path.isdir(call.path)]
        note(f"a journal's path {what}, gone on with", differs(places, [os.path.dirname(whole)]))


# ---- how files are opened


def check_opens(folder):
    """What is only read is opened by O_RDONLY, and nothing else of the folder is opened; a journal that is gone on with isn't cut by its opening."""
    steps = played(SMALL, TICKS)
    write_files(folder, {WORLD: bytes_of(SMALL), UPLOADS: b"", JOURNAL: journal_of(SMALL, steps), "module.wasm": module([b"\1"])})
    commands = {
        "run": (words_of(0), [WORLD, UPLOADS], [JOURNAL]),
        "check": (["check", "module.wasm"], ["module.wasm"], []),
        "show": (["show", JOURNAL, "1"], [JOURNAL], []),
        "replay": (["replay", JOURNAL], [JOURNAL], []),
        "gen": (["gen", "7", "1", "world"], [], []),
        "demo": (["demo", "7", "1", "2"], [], []),
    }
    place = os.path.realpath(folder)
    for name, (words, sources, journals) in commands.items():
        found, calls = traced(words, folder, "-e", f"trace={OPENS},unlink,unlinkat,rename,renameat,renameat2,truncate,mkdir,mkdirat")
        faults = [] if found[0] == 0 else [f"exit status {found[0]}, {shown(found[2])}"]
        ours = [call for call in calls if call.path and os.path.dirname(call.path) == place and not call.path.endswith("/trace")]
        opened = sorted(os.path.basename(call.path) for call in ours)
        faults += [] if opened == sorted([*sources, *journals]) else [f"what it opens is {opened}"]
        for call in ours:
            wanted = {"O_RDONLY"} if os.path.basename(call.path) in sources else {"O_RDWR", "O_CREAT"}
            is_so = call.flags() - {"O_CLOEXEC", "O_LARGEFILE", "O_NOCTTY"} == wanted
            faults += [] if is_so else [f"{os.path.basename(call.path)} is opened by {call.words}"]
        faults += [f"{call.kind}({call.words})" for call in calls if call.kind not in OPENS.split(",")]
        note(f"what {name} opens", faults)


# ---- writes that are short


def numbers_of(most):
    """Some of the calls from 1 to this one."""
    return sorted({1, 2, 3, most // 2, most - 1, most} & set(range(1, most + 1)))


def rest_faults(calls, number, answer):
    """What is wrong behind the call of this number, which wrote so many bytes: the next one has to write the rest."""
    if len(calls) < number + 1:
        return [f"{len(calls)} calls, and nothing behind call {number}"]
    short, following = calls[number - 1], calls[number]
    is_rest = short.answer == answer and following.asked() == short.asked() - answer
    return [] if is_rest else [f"call {number} is {short.words} = {short.answer}, the next {following.words}"]


def check_short_writes(folder):
    """A write that takes some of its bytes is followed by one of the rest. (What strace says was written is not, so the file lacks these bytes.)"""
    uploads = of_nobody(0, 3, 60_000)
    write_files(folder, {WORLD: bytes_of(SMALL), UPLOADS: stream_of(uploads)})
    for path in (JOURNAL, "lines"):
        only = ("-P", os.path.join(os.path.realpath(folder), path), "-e", f"trace={WRITES}")
        _, calls = written(folder, *only)
        note(f"writes to {path} are told", [] if len(calls) >= TICKS else [f"{len(calls)} calls"])
        for number in numbers_of(len(calls)):
            for answer in sorted({1, calls[number - 1].asked() - 1} & set(range(1, calls[number - 1].asked()))):
                _, again = written(folder, *only, "-e", f"inject={WRITES}:retval={answer}:when={number}")
                note(f"write {number} of {len(calls)} to {path} takes {answer} bytes", rest_faults(again, number, answer))


def written(folder, *options):
    """A run with the file `lines` as standard output, and the calls that were traced."""
    journal = os.path.join(folder, JOURNAL)
    if os.path.exists(journal):
        os.remove(journal)
    with open(os.path.join(folder, "lines"), "wb") as sink:
        return traced(words_of(TICKS), folder, *options, stdout=sink)


# ---- inputs that come in pieces


def pieces_of(content, most):
    at = 0
    while at < len(content):
        length = draw.randint(1, most)
        yield content[at : at + length]
        at += length


def fed(path, content, most, pause):
    """Begins to write a pipe of a name in pieces of at most so many bytes."""
    os.mkfifo(path)

    def feed():
        with contextlib.suppress(BrokenPipeError), open(path, "wb", buffering=0) as it:
            fcntl.fcntl(it, fcntl.F_SETPIPE_SZ, LEAST_PIPE)
            for piece in pieces_of(content, most):
                it.write(piece)
                time.sleep(pause)

    writer = threading.Thread(target=feed, daemon=True)
    writer.start()
    return writer


def released(path, writer):
    """Ends the writing of a pipe that nobody reads any more, or never read."""
    os.close(os.open(path, os.O_RDONLY | os.O_NONBLOCK))
    writer.join(MOST_SECONDS)


def ran_of_pipes(words, files, pipes, most, pause, stdin=None):
    """How a call ends of which some files are pipes, and the journal that it leaves."""
    with tempfile.TemporaryDirectory() as folder:
        write_files(folder, {path: content for path, content in files.items() if path not in pipes})
        writers = {path: fed(os.path.join(folder, path), files[path], most, pause) for path in pipes}
        given = {"input": stdin} if stdin else {"stdin": subprocess.DEVNULL}
        done = subprocess.run([PROGRAM, *words], cwd=folder, capture_output=True, timeout=MOST_SECONDS, **given)
        for path, writer in writers.items():
            released(os.path.join(folder, path), writer)
        return done.returncode, done.stdout, done.stderr, left_at(os.path.join(folder, JOURNAL))


def check_pieces():
    """World files, streams and modules that come in pieces, from a byte to as many as a pipe holds, are those that are read at once."""
    it, uploads = long_world(), of_nobody(0, 40, 300)
    steps = played(it, TICKS, uploads)
    files = {WORLD: bytes_of(it), UPLOADS: stream_of(uploads)}
    wanted = (0, output_of(it, steps), b"", journal_of(it, steps))
    for pipes in ([WORLD], [UPLOADS], [WORLD, UPLOADS]):
        for most in (40, 700, LEAST_PIPE, 1 << 16):
            found = ran_of_pipes(words_of(TICKS), files, pipes, most, 0.0002)
            note(f"{' and '.join(pipes)} in pieces of at most {most} bytes", differs(found, wanted))
    small = {WORLD: bytes_of(SMALL), UPLOADS: stream_of(of_nobody(0, 2, 9))}
    steps = played(SMALL, TICKS, of_nobody(0, 2, 9))
    wanted = (0, output_of(SMALL, steps), b"", journal_of(SMALL, steps))
    note("files in pieces of a byte", differs(ran_of_pipes(words_of(TICKS), small, [WORLD, UPLOADS], 1, 0), wanted))
    found = ran_of_pipes(words_of(TICKS, ["/dev/stdin", *FILES[1:]]), small, [], 1, 0, stdin=small[WORLD])
    note("the world file is standard input", differs(found, wanted))
    check_cut_pieces(small)
    code = module([b"\1" * 95] * 300)
    for content, out, status, err in ((code, b"accepted\n", 0, b""), (code[:-1], b"refused Malformed\n", 12, b"fault 12 Refused Malformed\n")):
        for most in (9, 700, 1 << 16):
            found = ran_of_pipes(["check", "module.wasm"], {"module.wasm": content}, ["module.wasm"], most, 0)
            note(f"a module of {len(content)} bytes in pieces of at most {most}", differs(found, (status, out, err, None)))


def check_cut_pieces(files):
    """What ends in the middle of a piece is as bad as a file that does."""
    cut = files[UPLOADS][:-1]
    place = len(stream_of(of_nobody(0, 1, 9)))
    # (the journal's file is not made, or stays empty)
    status, out, err, kept = ran_of_pipes(words_of(1), {**files, UPLOADS: cut}, [UPLOADS], 3, 0)
    note("a stream in pieces that is cut short", differs((status, out, err, kept or b""), (4, b"", b"fault 4 Uploads %d\n" % place, b"")))
    status, out, err, kept = ran_of_pipes(words_of(1), {**files, WORLD: files[WORLD][:-1]}, [WORLD], 3, 0)
    note("a world file in pieces that is cut short", differs((status, out, err, kept or b""), (3, b"", b"fault 3 World NotJson\n", b"")))


def check_short_reads(folder):
    """Reads of a pipe come short, so the runs above read in pieces."""
    write_files(folder, {WORLD: bytes_of(SMALL)})
    content = stream_of(of_nobody(0, 40, 300))
    writer = fed(os.path.join(folder, UPLOADS), content, 700, 0.001)
    _, calls = traced(words_of(1), folder, "-P", os.path.join(os.path.realpath(folder), UPLOADS), "-e", "trace=read,readv,pread64")
    released(os.path.join(folder, UPLOADS), writer)
    got = [call.answer for call in calls]
    faults = [] if sum(got) == len(content) and got[-1] == 0 else [f"the reads came to {sum(got)} bytes of {len(content)}, the last one to {got[-1:]}"]
    short = [call for call in calls[:-1] if 0 < call.answer < call.asked()]
    note("reads of a stream in pieces come short", faults + ([] if len(short) > 3 else [f"{len(short)} of {len(calls)} reads"]))


# ---- a reader who is slow


def read_slowly(command, folder, most, pause):
    """How a command ends whose output is read in pieces of at most so many bytes, from a pipe that holds as little as may be."""
    reader, writer = os.pipe()
    fcntl.fcntl(writer, fcntl.F_SETPIPE_SZ, LEAST_PIPE)
    run = subprocess.Popen(command, cwd=folder, stdin=subprocess.DEVNULL, stdout=writer, stderr=subprocess.PIPE)
    os.close(writer)
    got = []
    while True:
        piece = os.read(reader, draw.randint(1, most))
        if not piece:
            break
        got.append(piece)
        time.sleep(pause)
    os.close(reader)
    _, err = run.communicate(timeout=MOST_SECONDS)
    return run.returncode, b"".join(got), err


def check_slow_readers(folder):
    it, uploads = long_world(), of_nobody(0, 6_000, 0)
    steps = played(it, TICKS, uploads)
    write_files(folder, {WORLD: bytes_of(it), UPLOADS: stream_of(uploads)})
    kept, text = journal_of(it, steps), text_of(steps[-1].world) + b"\n"
    calls = {"run": (words_of(TICKS), output_of(it, steps)), "show": (["show", JOURNAL, str(TICKS)], text)}
    calls["replay"] = ["replay", JOURNAL], b"replayed %d\n" % TICKS
    for most, pause in ((1 << 16, 0), (900, 0.0002), (LEAST_PIPE, 0.002)):
        write_files(folder, {JOURNAL: b""})
        for name, (words, out) in calls.items():
            found = (*read_slowly([PROGRAM, *words], folder, most, pause), left_at(os.path.join(folder, JOURNAL)))
            note(f"{name}, read in pieces of at most {most} bytes", differs(found, (0, out, b"", kept)))


def main():
    check_pieces()
    reason = may_trace()
    traces = () if reason else (check_folders, check_opens, check_short_writes, check_short_reads)
    if reason:
        print(f"{checks.path}: opens, syncs and short writes were not looked at, since {reason}")
    for of in (*traces, check_slow_readers):
        with tempfile.TemporaryDirectory() as folder:
            of(folder)
    checks.finish()


main()
