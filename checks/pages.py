#!/usr/bin/env python3
"""Pages that play a journal: what players/show_page.py makes of journals, and what a browser makes of its pages.

It runs behind `rt ci`, which builds crates/world_server/out/world_server. The two colonies of worlds/colonies.json are run for 2,000 ticks, or for fewer where the
program is too slow for it. Each page is read again: the worlds are made of its changes and compared with those of the journal, in every field and
tick, as are runs, intents and uploads. By hand are journals with hostile texts and names, with the largest numbers, with long memory texts, and such
as are none. Its size, the time that it takes to make it and its memory stay within bounds. Where Chromium is installed it loads pages, sees no
fault, and has to have drawn what `show` has of the same ticks. With --without-browser Chromium is passed over.
"""

import base64
import hashlib
import html
import json
import os
import re
import resource
import shutil
import subprocess
import sys
import tempfile
import time

TOP = os.path.dirname(os.path.dirname(os.path.abspath(__file__)))
sys.path[:0] = [os.path.join(TOP, it) for it in ("oracle", "checks/harness", "players")]
from checked_program import Checks, content_of, run, shown  # noqa: E402
from game import ACTIONS, KINDS, PARTS, thing  # noqa: E402
from journal_file import GROUNDS, OUTCOMES, worlds_of  # noqa: E402
from worlds import Run, Step, bytes_of, full, journal_of, played, room, ticked, world  # noqa: E402

checks = Checks(__file__)
note = checks.note
SCRIPT = os.path.join(TOP, "players/show_page.py")
COLONIES = os.path.join(TOP, "worlds/colonies.json"), os.path.join(TOP, "worlds/colonies.uploads")
# The colonies are run for these numbers of ticks in turn, as long as the next one takes less than so many seconds.
COUNTS, MOST_RUNNING = (20, 60, 200, 2000), 25
# What a page may have: so many bytes a tick of the colonies, beside its form; and what the whole of 2,000 ticks may take.
OF_FORM, OF_TICK, MOST_SECONDS = 100_000, 4_900, 20
# A tick in which one object of many changes.
OF_IDLE_TICK = 120
# The memory that the page of a journal of 18 MB may take beyond that of a small one.
MOST_GROWTH = 8 << 20
BROWSERS = ("chromium", "chromium-browser", "google-chrome")


def seconds_of_children():
    used = resource.getrusage(resource.RUSAGE_CHILDREN)
    return used.ru_utime + used.ru_stime


def script(*words, stdout=subprocess.PIPE, **others):
    """Runs the script: its exit status, standard output and standard error."""
    done = subprocess.run([sys.executable, SCRIPT, *words], stdin=subprocess.DEVNULL, stdout=stdout, stderr=subprocess.PIPE, timeout=300, **others)
    return done.returncode, done.stdout, done.stderr


def page_of(name, journal, *words, named=b"the.journal"):
    """The page of a journal, or None where there is none, which is noted."""
    with tempfile.TemporaryDirectory() as folder:
        path = os.path.join(os.fsencode(folder), named)
        with open(path, "wb") as it:
            it.write(journal)
        status, out, err = script(path, *words)
    note(f"the page of {name}", [] if (status, err) == (0, b"") else [f"exit status {status}, {shown(err)}"])
    return out if status == 0 else None


# ---- a page, read again


def elements(page):
    """The texts of the page's style, its journal and its program."""
    text = page.decode("ascii")
    style = re.findall(r"<style>(.*?)</style>", text, re.S)
    kept = re.findall(r'<script type="application/json" id="journal">(.*?)</script>', text, re.S)
    program = re.findall(r"<script>(.*?)</script>", text, re.S)
    return style, kept, program


def form_faults(page):
    """What is wrong of a page beside its journal: its elements, its policy, and words by which it could reach something else."""
    try:
        style, kept, program = elements(page)
    except UnicodeDecodeError:
        return ["it has other characters than those of ASCII"]
    faults = [f"{len(found)} elements of {what}" for what, found in (("style", style), ("journal", kept), ("program", program)) if len(found) != 1]
    faults += [f"{page.lower().count(tag)} times {tag}" for tag in (b"<script", b"</script", b"<!doctype html>", b"</html>") if page.lower().count(tag) != 1 + (b"script" in tag)]
    hashes = ["'sha256-" + base64.b64encode(hashlib.sha256(found.encode()).digest()).decode() + "'" for found in (*program, *style)]
    policy = re.findall(r'<meta http-equiv="Content-Security-Policy" content="([^"]*)">', page.decode("ascii"))
    wanted = "default-src 'none'; script-src {}; style-src {}; base-uri 'none'; form-action 'none'"
    faults += [] if len(hashes) == 2 and policy == [wanted.format(*hashes)] else [f"the policy {policy}, with the hashes {hashes}"]
    outside = re.sub(r'<title>.*?</title>|<script type="application/json".*?</script>', "", page.decode("ascii"), flags=re.S)
    words = ("http:", "https:", "//cdn", " src=", "href", "eval(", "Function(", "innerHTML", "outerHTML", "insertAdjacentHTML", "document.write", "fetch(", "XMLHttp", "WebSocket", "import(", "@import", "url(")
    return faults + [f"the word {word}" for word in words if word in outside]


def whole_number(text):
    """A number of JSON, which a browser has to have whole."""
    assert abs(int(text)) < 2**53, f"the number {text}"
    return int(text)


class Told:
    """What a page tells: its head, and world by world what stands in each, by its changes."""

    def __init__(self, page):
        _, (kept,), _ = elements(page)
        self.head = json.loads(kept, parse_int=whole_number)
        self.objects, self.accounts, self.nexts, self.count = {}, {}, {}, 0

    def changed(self, fields, before, mask, values):
        after, values = dict(before), list(values)
        for place, field in enumerate(fields):
            if mask >> place & 1:
                after[field] = values.pop(0)
        assert not values, "values are left over"
        return after

    def follow(self, line):
        """Becomes the world behind a line, whose objects then are a table by number, and its accounts one by player."""
        _, _, accounts, nexts, objects = line
        for player, mask, *values in accounts:
            before = self.accounts.get(player, {"limit": 0, "bucket": 0, "points": 0, "memory": b""})
            after = self.changed(self.head["account_fields"], before, mask, values)
            if isinstance(after["memory"], list):
                front, back, middle = after["memory"]
                text = before["memory"]
                after["memory"] = text[:front] + base64.b64decode(middle, validate=True) + text[len(text) - back :]
            self.accounts[player] = after
        self.nexts.update(nexts)
        for number, *rest in objects:
            if not rest:
                del self.objects[number]
                continue
            if number not in self.objects:
                assert number == self.count, "numbers are not in the order in which objects come"
                self.count += 1
            before = self.objects.get(number, {field: "" if field == "body" else 0 for field in self.head["fields"]})
            self.objects[number] = self.changed(self.head["fields"], before, rest[0], rest[1:])

    def rooms(self):
        """The objects of each room in rising id, as the reader of journals has them."""
        found = {index: [] for index in self.nexts}
        for it in self.objects.values():
            one = {field: value if field == "body" else int(value) for field, value in it.items()}
            found[one.pop("room")].append({**one, "kind": self.head["kinds"][one["kind"]], "body": [PARTS[int(part) - 1] for part in one["body"]]})
        return {index: sorted(objects, key=lambda it: it["id"]) for index, objects in found.items()}

    def intent(self, action, actor=0, target=0, amount=0, body=""):
        return self.head["actions"][action - 1], int(actor), int(target), int(amount), [PARTS[int(part) - 1] for part in body]

    def runs(self, line):
        for player, outcome, trap, used, intents in line[1]:
            yield player, OUTCOMES[outcome], trap, int(used), [self.intent(*it) for it in intents]


def account_faults(told, world, ends):
    """Where accounts are others. From the place on from which texts are left out, a text that was written is told by its length."""
    faults = [] if told.accounts.keys() == world.accounts.keys() else ["other players"]
    for player in told.accounts.keys() & world.accounts.keys():
        one, other = told.accounts[player], world.accounts[player]
        text = one["memory"] if isinstance(one["memory"], bytes) else b"left out"
        wanted = other.memory if isinstance(one["memory"], bytes) or not ends else b"left out"
        length = len(one["memory"]) if isinstance(one["memory"], bytes) else one["memory"]
        found = (int(one["limit"]), int(one["bucket"]), int(one["points"]), length, text)
        faults += [] if found == (other.limit, other.bucket, other.points, len(other.memory), wanted) else [f"account {player}: {shown(found)}, wanted {shown(other)}"]
    return faults


def record_faults(told, line, record):
    if record is None:
        return [] if line[:2] == [[], []] else ["the first world has a record"]
    uploads = [(it.player, it.result, len(it.module)) for it in record.uploads]
    runs = [(run.player, run.outcome, run.trap, run.used, [tuple(it) for it in run.intents]) for run in record.runs]
    faults = [] if [tuple(it) for it in line[0]] == uploads else [f"uploads {line[0]}, wanted {uploads}"]
    found = list(told.runs(line))
    return faults + ([] if found == runs else [f"runs {shown(found)}, wanted {shown(runs)}"])


def head_faults(head, tick, world):
    rooms = [[it.column, it.row, "".join(map(str, it.ground))] for _, it in sorted(world.rooms.items())]
    faults = [] if head["first"] == str(tick) else [f"the first tick is {head['first']}, and not {tick}"]
    faults += [] if head["rooms"] == rooms else ["rooms or grounds are others"]
    return faults + ([] if (head["kinds"], head["grounds"], head["parts"], head["actions"]) == (KINDS, GROUNDS, PARTS, list(ACTIONS)) else ["names are others"])


def told_faults(page, journal, first=None, last=None):
    """Where what a page tells isn't what the journal has, in the ticks from first to last."""
    try:
        return differences(page, journal, first, last)
    except (ValueError, LookupError, AssertionError, TypeError) as error:
        return [f"it can't be read again: {error!r}"]


def differences(page, journal, first, last):
    told, faults, at = Told(page), [], 0
    for record, it in worlds_of(journal):
        if (first is not None and it.tick < first) or (last is not None and it.tick > last):
            continue
        if at >= len(told.head["ticks"]):
            return [*faults, f"tick {it.tick} is missing"]
        if at == 0:
            faults += head_faults(told.head, it.tick, it)
        line = told.head["ticks"][at]
        told.follow(line)
        ends = told.head["texts_end"] is not None and at >= told.head["texts_end"]
        found = [] if told.rooms() == {index: one.objects for index, one in it.rooms.items()} else ["objects are others"]
        found += [] if told.nexts == {index: one.next for index, one in it.rooms.items()} else ["serials are others"]
        found += account_faults(told, it, ends) + record_faults(told, line, record if at else None)
        faults += [f"tick {it.tick}: {fault}" for fault in found]
        at += 1
    return faults + ([] if at == len(told.head["ticks"]) else [f"{len(told.head['ticks']) - at} ticks too many"])


def check_told(name, journal, *words, first=None, last=None, **others):
    page = page_of(name, journal, *words, **others)
    if page is not None:
        note(f"what the page of {name} has beside its journal", form_faults(page))
        note(f"what the page of {name} tells", told_faults(page, journal, first, last))
    return page


# ---- journals


def colonies(folder):
    """The journal of the sample colonies, and how many ticks it has."""
    path, done = os.path.join(folder, "colonies.journal"), 0
    for count in COUNTS:
        before = time.monotonic()
        status, _, err = run(["run", *COLONIES, path, "--ticks", str(count - done)], folder)
        note(f"the colonies up to tick {count}", [] if status == 0 else [f"exit status {status}, {shown(err)}"])
        took, last, done = time.monotonic() - before, done, count
        following = next((it for it in COUNTS if it > count), None)
        # (later ticks take more)
        if following is None or 2 * took / (count - last) * (following - count) > MOST_RUNNING:
            return path, done


def check_colonies(path, count):
    """The page of the colonies: what it tells, its size and the time that it takes."""
    journal = content_of(path)
    before = seconds_of_children()
    page = page_of("the colonies", journal)
    took = seconds_of_children() - before
    if page is None:
        return
    note("what the page of the colonies has beside its journal", form_faults(page))
    note("what the page of the colonies tells", told_faults(page, journal))
    most = OF_FORM + OF_TICK * count
    note("the size of the page", [] if len(page) <= most else [f"{len(page):,} bytes for {count} ticks, and not at most {most:,}"])
    note("the time that the page takes", [] if took <= MOST_SECONDS else [f"{took:.1f} seconds for {count} ticks"])
    middle = count // 2
    check_told("some ticks of the colonies", journal, "--from", str(middle), "--to", str(middle + 5), first=middle, last=middle + 5)
    check_told("the last tick of the colonies", journal, "--from", str(count), first=count)
    check_told("the first tick of the colonies", journal, "--to", "0", last=0)


def check_documented(path, count):
    """The lines of docs/players.md that make pages of the colonies, run as they stand there."""
    with open(os.path.join(TOP, "docs/players.md"), encoding="utf-8") as it:
        lines = [line.strip() for line in it if line.startswith("    players/show_page.py ")]
    note("the lines that make pages in docs/players.md", [] if len(lines) == 2 else [f"{len(lines)}, and not 2"])
    with tempfile.TemporaryDirectory() as folder:
        os.symlink(os.path.join(TOP, "players"), os.path.join(folder, "players"))
        os.symlink(path, os.path.join(folder, "colonies.journal"))
        for line in lines:
            done = subprocess.run(["sh", "-c", line], cwd=folder, stdin=subprocess.DEVNULL, stdout=subprocess.PIPE, stderr=subprocess.STDOUT, timeout=300)
            first, last = (int(found[1]) if (found := re.search(rf"--{word} (\d+)", line)) else None for word in ("from", "to"))
            if first is not None and first > count:
                print(f"passed over: {line}")
                continue
            faults = [] if (done.returncode, done.stdout) == (0, b"") else [f"exit status {done.returncode}, {shown(done.stdout)}"]
            note(line, faults or told_faults(content_of(os.path.join(folder, "colonies.html")), content_of(path), first, last))


def check_idle():
    """Worlds in which one pile changes and a hundred sites don't: the page grows by what changes. And one in which creeps cross and die, and a pile comes."""
    sites = [thing("site", 10 + at, 1 + at % 40, 1 + at // 40, owner=1, extra=8) for at in range(100)]
    first = world(room("E0S0", 200, thing("pile", 1, 20, 20, energy=900), *sites), room("E5S0", 1), room("W0N3", 1), players=[{"player": 1, "limit": 20}])
    sizes = []
    for count in (10, 110):
        page = check_told(f"{count} idle ticks", journal_of(first, played(first, count)))
        sizes.append(len(page or b""))
    each = (sizes[1] - sizes[0]) / 100
    note("the size of an idle tick", [] if 0 < each <= OF_IDLE_TICK else [f"{each} bytes"])
    crossing = [thing("creep", 7, 48, 25, owner=1, body=["move"], timer=3), thing("creep", 8, 10, 10, owner=1, body=["move"], timer=2, hits=70)]
    carrier = thing("creep", 6, 30, 30, owner=1, body=["carry", "move"], timer=900, energy=40)
    first = world(room("E0S0", 9, carrier, *crossing), room("E1S0", 3), players=[{"player": 1, "limit": 20}])
    step = [Run(1, "finished", 5, b"", {("drop", 6): (0, 30), ("move", 7): (0, 3)}), Run(1, "spent", 5, b""), Run(1, "trapped", 6, b"", {("move", 99): (0, 3)}, trap=4)]
    it, steps = full(first), []
    for run_of in step:
        it = ticked(it, [run_of])
        steps.append(Step([(1, "NoLoop", b"abc"), (9, "UnknownPlayer", b"")], [run_of], it))
    check_told("creeps that cross and die", journal_of(first, steps))


def of_texts(texts, **fields):
    """The journal of a world whose player has these memory texts, one after another."""
    it = first = full(world(room("E0S0", 3, thing("pile", 1, 20, 20, energy=9000)), players=[{"player": 1, "limit": 20, **fields}]))
    steps = []
    for text in texts:
        runs = [Run(1, "finished", 7, text)]
        it = ticked(it, runs)
        steps.append(Step([], runs, it))
    return journal_of(first, steps)


HOSTILE = [
    b"</script><script>document.title='x'</script>",
    b"<!--<script>",
    b"]]></SCRIPT ><img src=x onerror=alert(1)>",
    "\u2028\u2029\u0000\ud7ff".encode(),
    bytes(range(256)),
    b"",
    b"&lt;&amp;'\"\\\n\r\t`${1}",
]
NAMES = [b"<img src=x onerror=alert(1)>&amp;.journal", b"'\"><script>alert(1)<!--.journal", b"JOURNAL POLICY.journal", "\u2028\u2029 \u00e9.journal".encode(), b"\xff\xfe.journal", b"-."]


def check_hostile():
    for name in NAMES:
        words = ["--"] if name.startswith(b"-") else []
        page = page_of(f"the file {name}", of_texts(HOSTILE), *words, named=name)
        if page is not None:
            note(f"what the page of the file {name} has beside its journal", form_faults(page))
            note(f"what the page of the file {name} tells", told_faults(page, of_texts(HOSTILE)))
            title = re.search(r"<title>(.*?)</title>", page.decode("ascii", "replace"), re.S)
            faults = [] if title and "<" not in title[1] else ["the title has an element"]
            note(f"the name of the file {name}", faults + ([] if Told(page).head["name"] == os.fsdecode(name) else ["another name"]))


def check_texts():
    """Texts that pass what the page takes of them: they are left out from there on, with their lengths."""
    texts = [hashlib.shake_128(bytes([at])).digest(65_000) for at in range(40)]
    page = check_told("long memory texts", of_texts(texts))
    if page is not None:
        head = Told(page).head
        within = next(at for at in range(1, 41) if sum(-(-65_000 // 3) * 4 for _ in range(at)) > head["most_texts"])
        faults = [] if head["texts_end"] == within else [f"texts end at {head['texts_end']}, and not at {within}"]
        note("where long texts end", faults + ([] if len(page) < head["most_texts"] + OF_FORM else [f"{len(page):,} bytes"]))
    # (a long text of which a byte changes takes few)
    texts = [bytes(30_000) + bytes([at]) + bytes(30_000) for at in range(1, 41)]
    page = check_told("long memory texts of which a byte changes", of_texts(texts))
    note("the size of a page of such texts", [] if page is not None and len(page) < OF_FORM + 100_000 else ["too large"])


def check_numbers():
    """The largest numbers that a journal may have."""
    first = world(
        room("W127N127", 2**32 - 1, thing("storage", 2**32 - 2, 48, 48, owner=2**32 - 1, energy=1_000_000)),
        room("E127S127", 9, thing("pile", (1 << 32) + 1, 0, 1, energy=10**9)),
        tick=2**53 - 2,
        players=[{"player": 2**32 - 1, "limit": 500, "bucket": 10_000, "points": 2**53}],
    )
    entries = {("drop", 2**64 - 1): (2**64 - 2, 2**53 + 1), ("spawn_creep", 3): (0, 0, ["claim"] * 50), ("move", 1): (0, 2**64 - 1)}
    it, steps = full(first), []
    for _ in range(5):
        runs = [Run(2**32 - 1, "spent", 5_000_000, b"", entries)]
        it = ticked(it, [Run(2**32 - 1, "spent", 5_000_000, b"")])
        steps.append(Step([], runs, it))
    page = check_told("the largest numbers", journal_of(first, steps))
    note("the first tick of the largest numbers", [] if page is not None and Told(page).head["first"] == str(2**53 - 2) else ["another one"])
    return journal_of(first, steps)


def check_memory():
    """A long journal takes as little memory as a short one: it is not in memory whole."""
    texts = [bytes([at % 256]) * 60_000 for at in range(300)]
    with tempfile.TemporaryDirectory() as folder:
        peaks = []
        for count in (2, 300):
            path = os.path.join(folder, "long.journal")
            with open(path, "wb") as it:
                it.write(of_texts(texts[:count]))
            peaks.append(peak_of(path, folder))
    note("the memory that the page of a long journal takes", [] if peaks[1] - peaks[0] < MOST_GROWTH else [f"{peaks[1] - peaks[0]:,} bytes more"])


def peak_of(path, folder):
    """The memory that the script takes at most for the page of a journal."""
    # (the peak of its own memory: that of `getrusage` would be at least what this check has when it starts it)
    code = "import sys, runpy\nsys.argv = sys.argv[1:]\nsys.path.insert(0, sys.argv[0].rsplit('/', 1)[0])\nrunpy.run_path(sys.argv[0], run_name='__main__')\nprint(open('/proc/self/status').read(), file=sys.stderr)"
    with open(os.path.join(folder, "page.html"), "wb") as sink:
        done = subprocess.run([sys.executable, "-c", code, SCRIPT, path], stdout=sink, stderr=subprocess.PIPE, timeout=300)
    return int(re.search(rb"VmHWM:\s*(\d+) kB", done.stderr)[1]) * 1024


# ---- what is no journal, and wrong words


def check_refusals():
    good = of_texts([b"one", b"two"])
    ends = [len(of_texts([b"one", b"two"][:count])) - 1 for count in (0, 1, 2)]
    wrong_tile = bytearray(good)
    wrong_tile[good.index(b"SWSJ") + 20 + 8 + 7] = 3
    files = {
        "empty": (b"", "empty: nothing is recorded in it"),
        "closed": (b"\0", "closed: nothing is recorded in it"),
        "one": (b"x", "one: nothing is recorded in it"),
        "behind": (b"\0" + good, "behind: nothing is recorded in it"),
        "text": (b"hello\n", "text is no journal: a frame is cut off at byte 0"),
        "json": (bytes_of(full(world(room("E0S0", 1)))), "json is no journal: a frame is cut off at byte 0"),
        "cut": (good[:-1], f"cut is no journal: a frame is cut off at byte {ends[1]}"),
        "shorter": (good[: ends[1] + 30], f"shorter is no journal: a frame is cut off at byte {ends[1]}"),
        "head": (good[:5], "head is no journal: a frame is cut off at byte 0"),
        "other": (b"\1" + (4).to_bytes(8, "little") + b"SWSX\0", "other is no journal: the first frame is no base of a world at byte 13"),
        "without_base": (b"\1" + good[ends[0] + 1 :], None),
        "again": (good[:-1] + good[ends[0] :], None),
        "ground": (bytes(wrong_tile), None),
    }
    with tempfile.TemporaryDirectory() as folder:
        for name, (content, said) in files.items():
            with open(os.path.join(folder, name), "wb") as it:
                it.write(content)
            refused(f"the file {name}", [name], said, folder)
        with open(os.path.join(folder, "good"), "wb") as it:
            it.write(good)
        os.mkdir(os.path.join(folder, "folder"))
        refused("a file that isn't there", ["none"], "No such file or directory: none", folder)
        refused("a folder", ["folder"], "Is a directory: folder", folder)
        refused("no word", [], "the words are JOURNAL [--from TICK] [--to TICK]: see --help", folder)
        for words in (["good", "good"], ["good", "--tick", "1"], ["good", "--from"], ["--fro", "1", "good"], ["-x"]):
            refused(f"the words {words}", words, None, folder)
        for text in ("", "-1", "x", "1.0", "1" * 30, "\u0663"):
            refused(f"from {text!r}", ["good", f"--from={text}"], f"--from: {text!r} is no number of a tick", folder)
        for words in (["--from", "3"], ["--from", "2", "--to", "1"], ["--from", "18446744073709551616"]):
            refused(f"the words {words}", ["good", *words], "good has no tick between these", folder)
        status, out, err = script("--help", cwd=folder)
        note("the help", [] if (status, err) == (0, b"") and all(word in out for word in (b"JOURNAL", b"--from TICK", b"--to TICK")) else [f"exit status {status}, {shown(out + err)}"])
        with open("/dev/full", "wb") as sink:
            refused("a full standard output", ["good"], "No space left on device: standard output", folder, stdout=sink)
        refused("a closed standard output", ["good"], "standard output is closed: send the page to a file", folder, stdout=None, preexec_fn=lambda: os.close(1))
    for name, journal in (("a base alone", of_texts([])), ("bytes behind the closed gate", good + b"\1left")):
        check_told(name, journal)


def refused(name, words, said, folder, **others):
    """Words that are refused by one line, with nothing printed; what it says stands there, or None where only the line counts."""
    status, out, err = script(*words, cwd=folder, **others)
    line = err.decode("utf-8", "replace")
    is_line = line.startswith("show_page.py: ") and line.count("\n") == 1 and line.endswith("\n") and len(line) > 20
    is_said = said is None or line == f"show_page.py: {said}\n"
    note(f"refused: {name}", [] if (status, out or b"") == (1, b"") and is_line and is_said else [f"exit status {status}, printed {shown(out)}, said {shown(line)}, wanted {shown(said)}"])


# ---- a browser


def browser():
    return None if "--without-browser" in sys.argv[1:] else next(filter(None, map(shutil.which, BROWSERS)), None)


def loaded(program, path, fragment, folder):
    """The document that a browser has made of a page; none where it takes too long."""
    words = ["--headless", "--disable-gpu", "--disable-dev-shm-usage", "--no-first-run", f"--user-data-dir={folder}/profile", "--window-size=1280,800", "--virtual-time-budget=3000", "--dump-dom"]
    words += ["--no-sandbox"] if os.geteuid() == 0 else []
    try:
        done = subprocess.run([program, *words, f"file://{path}#{fragment}"], stdin=subprocess.DEVNULL, stdout=subprocess.PIPE, stderr=subprocess.DEVNULL, timeout=300)
    except subprocess.TimeoutExpired:
        return ""
    return done.stdout.decode("utf-8", "replace")


def may_load(program, folder):
    """Whether the browser loads a file of this folder at all: one that is shut in may not."""
    path = os.path.join(folder, "probe.html")
    with open(path, "w", encoding="ascii") as it:
        it.write("<!DOCTYPE html><title>probe</title><p id=probe></p><script>document.getElementById('probe').textContent = 6 * 7</script>")
    return '<p id="probe">42</p>' in loaded(program, path, "", folder)


def data_of(document):
    """What the page says of itself: the data of its body."""
    body = re.search(r"<body([^>]*)>", document)
    return {name: html.unescape(value) for name, value in re.findall(r'data-(\w+)="([^"]*)"', body[1] if body else "")}


def faults_in(document):
    found = re.search(r'<pre id="faults"[^>]*>(.*?)</pre>', document, re.S)
    return found[1] if found else "there is no list of faults"


def creeps_of(world_text):
    """How many creeps each player has, as `show` has the world."""
    counts = {}
    for it in (one for place in json.loads(world_text)["rooms"] for one in place["objects"] if one["kind"] == "creep"):
        counts[it["owner"]] = counts.get(it["owner"], 0) + 1
    return counts


def check_loaded(program, journal_path, tick, tile, parts, folder):
    """A tick of a journal in a browser, with a tile chosen whose part of the page has these texts."""
    status, page, err = script(journal_path)
    page_path = os.path.join(folder, "page.html")
    with open(page_path, "wb") as it:
        it.write(page)
    document = loaded(program, page_path, f"tick={tick}&tile={tile}", folder)
    found = data_of(document)
    faults = [] if (found.get("ready"), found.get("faults")) == ("1", "0") else [f"it says {found}, and {faults_in(document)}"]
    status, out, _ = run(["show", journal_path, str(tick)], folder)
    drawn = {int(player): int(count) for player, count in (it.split(":") for it in found.get("creeps", "").split())}
    faults += [] if status == 0 and drawn == creeps_of(out) else [f"drawn were the creeps {drawn}, and in the world are {creeps_of(out) if status == 0 else status}"]
    record, _ = next(it for it in worlds_of(content_of(journal_path)) if it[1].tick == tick)
    wanted = sum(len(it.intents) for it in record.runs) if record else 0
    faults += [] if found.get("tick") == str(tick) and found.get("wants") == str(wanted) else [f"tick {found.get('tick')} with {found.get('wants')} intents, wanted {tick} with {wanted}"]
    details = re.search(r'<div id="details"[^>]*>(.*?)</div>', document, re.S)
    text = html.unescape(re.sub(r"<[^>]*>", "", details[1])) if details else ""
    faults += [f"the tile doesn't say {part}: {shown(text)}" for part in parts if part not in text]
    note(f"tick {tick} in a browser", faults)


def spawn_texts(path, tick):
    """What the page has to say of the first spawn of the colonies after a tick."""
    it = next(one for _, it in worlds_of(content_of(path)) if it.tick == tick for one in it.rooms[0].objects if one["kind"] == "spawn")
    texts = [f"spawn {it['id']} of player {it['owner']}", f"x {it['x']}", f"y {it['y']}", "hits 5,000 of 5,000", f"energy {it['energy']}", f"timer {it['timer']}", "player 1: limit 40"]
    return f"E0S0,{it['x']},{it['y']}", texts


def check_browser(path, count, numbers):
    program = browser()
    if program is None:
        print("skipped: no Chromium")
        return
    with tempfile.TemporaryDirectory(ignore_cleanup_errors=True) as folder:
        if not may_load(program, folder):
            print(f"skipped: {program} loads no file of {os.path.dirname(folder)}")
            return
        for tick in (1, count - 3):
            check_loaded(program, path, tick, *spawn_texts(path, tick), folder)
        large = os.path.join(folder, "numbers.journal")
        with open(large, "wb") as it:
            it.write(numbers)
        page = script(large)[1]
        with open(os.path.join(folder, "page.html"), "wb") as it:
            it.write(page)
        found = data_of(loaded(program, os.path.join(folder, "page.html"), f"tick={2**53 + 1}", folder))
        note("ticks above 2^53 in a browser", [] if (found.get("ready"), found.get("faults"), found.get("tick")) == ("1", "0", str(2**53 + 1)) else [f"it says {found}"])


def main():
    check_refusals()
    check_idle()
    check_hostile()
    check_texts()
    numbers = check_numbers()
    check_memory()
    with tempfile.TemporaryDirectory() as folder:
        path, count = colonies(folder)
        check_colonies(path, count)
        check_documented(path, count)
        check_browser(path, count, numbers)
    print(f"{count} ticks of the colonies")
    checks.finish()


main()
