#!/usr/bin/env python3
"""How the built program stops where a file or an output is none that it can use, and what goes on behind that: files and folders that the system
refuses, pipes, two runs on one journal, standard output that is full or closed, and runs that go on with a journal and whose cuts, writes and syncs
fail in their turn.

It runs behind `rt ci`, which builds crates/world_server/out/world_server. Each stop has to be an exit status with its fault line, what was printed
has to stand in the journal, and the next run has to go on to the file of one run. Where `strace` is installed and may trace, it lets the calls fail.
Modes are looked at as the user nobody where root runs this. What is compared with comes from oracle/worlds.py.
"""

import os
import resource
import signal
import subprocess
import sys
import tempfile
import time

TOP = os.path.dirname(os.path.dirname(os.path.abspath(__file__)))
sys.path[:0] = [os.path.join(TOP, it) for it in ("oracle", "checks/harness")]
from checked_program import PROGRAM, Checks, content_of, files_in, shown, write_files  # noqa: E402
from failing_calls import (  # noqa: E402
    CUTS,
    FILES,
    LENGTHS,
    LOCKS,
    OPENS,
    READS,
    SYNCS,
    WRITES,
    at_path,
    calls_of,
    ended,
    failing,
    forget_journal,
    may_trace,
    of_nobody,
    traced,
    went_on_faults,
    words_of,
)
from module_bytes import OPENING  # noqa: E402
from worlds import SMALL, bytes_of, contents_of, journal_of, output_of, played, stream_of, text_of  # noqa: E402

checks = Checks(__file__)
note = checks.note

TICKS, EARLIER = 4, 2
LEFT = b"\1left"
STEPS = played(SMALL, TICKS)
WHOLE = journal_of(SMALL, STEPS)
STANDING = journal_of(SMALL, STEPS[:EARLIER])
FAULTS = {5: b"fault 5 ReadFault\n", 6: b"fault 6 WriteFault\n", 7: b"fault 7 DiskFault\n", 15: b"fault 15 NoJournal\n"}


def ticks_from(first, count):
    """What a run prints that makes so many ticks from this one on."""
    return output_of(STEPS[first - 1].world if first else SMALL, STEPS[first : first + count])


def compared(name, found, wanted, faults=()):
    note(name, [*faults, *([] if found == wanted else [f"{shown(found)}, wanted {shown(wanted)}"])])


def with_inputs(folder, **others):
    write_files(folder, {"world.json": bytes_of(SMALL), "uploads.bin": b"", "module.wasm": OPENING, **others})


# ---- standard output


def check_outputs():
    """Standard output that takes no byte: the run ends before its first tick, with the journal that it began or found, and the next one goes on.
    (Each other command to a full output is one of checks/program.py and checks/generated.py.)"""
    base = journal_of(SMALL, [])
    calls = {
        "a run": (words_of(TICKS), b"", base),
        "a run that goes on": (words_of(TICKS), STANDING + LEFT, STANDING),
        "a check of what is refused": (["check", "module.wasm"], b"", b""),
        "a show": (["show", FILES[2], "1"], STANDING, STANDING),
        "a replay": (["replay", FILES[2]], STANDING, STANDING),
        "a gen": (["gen", "7", "1", "world"], b"", b""),
        "a demo": (["demo", "7", "1", "1"], b"", b""),
    }
    for name, (words, kept, left) in calls.items():
        for output in ("full", "closed") if words[0] in ("run", "check") else ("closed",):
            with tempfile.TemporaryDirectory() as folder:
                with_inputs(folder, **{FILES[2]: kept})
                found, faults = without_output(folder, words, output)
                faults += went_on_faults(folder, STEPS, TICKS - (EARLIER if kept else 0)) if words[0] == "run" else []
            compared(f"{name}, where standard output is {output}", found, (6, b"", FAULTS[6], left), faults)


def without_output(folder, words, output):
    """How a command ends whose standard output is full or closed, and the inputs that it changed, as where one came in the output's place."""
    before = files_in(folder)
    with open("/dev/full", "wb") as full:
        found = ended([PROGRAM, *words], folder, **({"stdout": full} if output == "full" else {"preexec_fn": lambda: os.close(1)}))
    left = files_in(folder)
    return found, [f"{path} has changed" for path in sorted({*before, *left} - {FILES[2]}) if left.get(path) != before.get(path)]


def check_closed():
    """Standard input and standard error that are closed change nothing but that no fault line is said; no file comes in their place."""
    with tempfile.TemporaryDirectory() as folder:
        with_inputs(folder)
        found = ended([PROGRAM, *words_of(TICKS)], folder, preexec_fn=lambda: (os.close(0), os.close(2)))
        compared("a run, where standard input and standard error are closed", found, (0, output_of(SMALL, STEPS), b"", WHOLE))
        write_files(folder, {FILES[2]: b"hello"})
        found = ended([PROGRAM, *words_of(TICKS)], folder, preexec_fn=lambda: (os.close(0), os.close(1), os.close(2)))
        compared("a run on what is no journal, where all three are closed", found, (8, b"", b"", b"hello"))


# ---- a limit on the size of files


def check_sizes():
    """A limit on the size of files: the system ends the program by a signal where the journal would pass it, and where the signal is passed over the write
    fails. What was printed stands, and the next run goes on."""
    limit = len(journal_of(SMALL, STEPS[:EARLIER])) + 20
    for name, status, err in (("as usual", -signal.SIGXFSZ, b""), ("passed over", 7, FAULTS[7])):

        def limited(is_passed_over=status > 0):
            resource.setrlimit(resource.RLIMIT_FSIZE, (limit, limit))
            if is_passed_over:
                signal.signal(signal.SIGXFSZ, signal.SIG_IGN)

        with tempfile.TemporaryDirectory() as folder:
            with_inputs(folder)
            found = ended([PROGRAM, *words_of(TICKS)], folder, preexec_fn=limited)
            left = contents_of(found[3])
            faults = [] if left == contents_of(WHOLE)[: len(left)] and len(left) > EARLIER else [f"the journal of {len(found[3])} bytes is that of {len(left)} frames"]
            faults += went_on_faults(folder, STEPS, TICKS + 1 - len(left))
        compared(f"a limit of {limit} bytes of a file, the signal {name}", found[:3], (status, ticks_from(0, EARLIER), err), faults)


# ---- pipes and folders


def of_pipe(words, folder, content=None):
    """How a command ends that is given a named pipe, whose other side nobody opens, or somebody who writes this content into it and closes it."""
    pipe = os.path.join(folder, "pipe")
    os.mkfifo(pipe)
    run = subprocess.Popen([PROGRAM, *words], cwd=folder, stdin=subprocess.DEVNULL, stdout=subprocess.PIPE, stderr=subprocess.PIPE)
    if content is not None:
        put_into(pipe, run, content)
    try:
        out, err = run.communicate(timeout=20)
    except subprocess.TimeoutExpired:
        run.kill()
        out, err = run.communicate()
        return "none in 20 seconds", out, err
    return run.returncode, out, err


def put_into(pipe, run, content):
    """Opens the pipe once the program has, and writes what it takes of this."""
    while run.poll() is None:
        try:
            number = os.open(pipe, os.O_WRONLY | os.O_NONBLOCK)
        except OSError:
            # (nobody has opened it yet)
            time.sleep(0.01)
            continue
        try:
            os.write(number, content)
        except OSError:
            # (it is closed again)
            pass
        os.close(number)
        return


def check_pipes():
    """A pipe is no journal: a run doesn't wait for its other side, and a show and a replay do, and then find nothing, whatever comes out of it. The
    other files may be pipes."""
    words = ["run", "world.json", "uploads.bin", "pipe", "--ticks", "1"]
    fault, lines, small = (7, b"", FAULTS[7]), output_of(SMALL, STEPS[:1]), bytes_of(SMALL)
    calls = {
        "a pipe as the journal": (words, None, fault),
        "a pipe with a writer as the journal of a show": (["show", "pipe", "0"], b"", (15, b"", FAULTS[15])),
        "a pipe with a journal in it as that of a show": (["show", "pipe", "0"], WHOLE, (15, b"", FAULTS[15])),
        "a pipe with a journal in it as that of a replay": (["replay", "pipe"], WHOLE, (15, b"", FAULTS[15])),
        "a pipe as the world file": (["run", "pipe", *words[2:3], FILES[2], *words[4:]], small, (0, lines, b"")),
        "a pipe as the upload stream": (["run", "world.json", "pipe", FILES[2], *words[4:]], b"", (0, lines, b"")),
        "a pipe as the module": (["check", "pipe"], OPENING, (12, b"refused NoLoop\n", b"fault 12 Refused NoLoop\n")),
    }
    for name, (words, content, wanted) in calls.items():
        with tempfile.TemporaryDirectory() as folder:
            with_inputs(folder)
            compared(name, of_pipe(words, folder, content), wanted)


TWICE = 20


def check_two_runs():
    """A run whose upload stream is a pipe waits for it with its journal open; a second run on that journal ends at once and changes nothing; and then the
    first goes on to the file of one run. A show beside them asks for no lock."""
    words = ["run", "world.json", "pipe", FILES[2], "--ticks", str(TICKS - EARLIER)]
    for time_of in range(TWICE):
        with tempfile.TemporaryDirectory() as folder:
            with_inputs(folder, **{FILES[2]: STANDING})
            pipe = os.path.join(folder, "pipe")
            os.mkfifo(pipe)
            run = subprocess.Popen([PROGRAM, *words], cwd=folder, stdin=subprocess.DEVNULL, stdout=subprocess.PIPE, stderr=subprocess.PIPE)
            # (once the other side is open the program opens its journal)
            number = os.open(pipe, os.O_WRONLY)
            faults = [] if is_locked(os.path.join(folder, FILES[2])) else ["the journal is not locked"]
            second = ended([PROGRAM, *words_of(TICKS)], folder)
            faults += [] if second == (7, b"", FAULTS[7], STANDING) else [f"the second run: {shown(second)}"]
            beside = ended([PROGRAM, "replay", FILES[2]], folder)
            faults += [] if beside == (0, b"replayed %d\n" % EARLIER, b"", STANDING) else [f"a replay beside it: {shown(beside)}"]
            os.close(number)
            out, err = run.communicate(timeout=60)
            found = run.returncode, out, err, content_of(os.path.join(folder, FILES[2]))
        compared(f"two runs on one journal, the {time_of + 1}th time", found, (0, ticks_from(EARLIER, TICKS - EARLIER), b"", WHOLE), faults)


def is_locked(path):
    """Waits until a file is locked, for some seconds at most. It is looked up, and no lock asked for, which would be in the program's way."""
    number = f":{os.stat(path).st_ino}"
    for _ in range(1_000):
        with open("/proc/locks", encoding="ascii") as it:
            if any(word.endswith(number) for line in it for word in line.split()):
                return True
        time.sleep(0.01)
    return False


def check_places():
    """Journals that are no files, or have no place."""
    paths = {"a folder": "kept", "a file in no folder": "none/journal.bin", "a file in a file": "world.json/journal.bin", "an empty path": ""}
    for name, path in paths.items():
        with tempfile.TemporaryDirectory() as folder:
            with_inputs(folder, kept=None)
            names = sorted(os.listdir(folder))
            found = ended([PROGRAM, "run", "world.json", "uploads.bin", path, "--ticks", "1"], folder)
            made = [] if sorted(os.listdir(folder)) == names and not os.listdir(os.path.join(folder, "kept")) else [f"files {os.listdir(folder)}"]
        compared(f"{name} as the journal", found, (7, b"", FAULTS[7], b""), made)


# ---- what the system refuses

# The files of a folder `kept` that belong to nobody, whose modes are set.
NOBODY = {} if os.geteuid() else {"user": 65_534, "group": 65_534, "extra_groups": []}


def runs_as_nobody(folder):
    try:
        return ended([PROGRAM, "--version"], folder, **NOBODY)[0] == 0
    except (OSError, subprocess.SubprocessError):
        return False


def under_modes(folder, words, modes, files):
    """How a command of nobody ends where these files stand in the folder `kept`, which is his, with these modes; and the journal that is left."""
    kept = os.path.join(folder, "kept")
    write_files(folder, {"kept": None, **{os.path.join("kept", path): content for path, content in files.items()}})
    paths = {path: os.path.join(kept, path) for path in ("", *files)}
    for path in paths.values():
        os.chmod(path, 0o755 if path == paths[""] else 0o644)
        if NOBODY:
            os.chown(path, NOBODY["user"], NOBODY["group"])
    for path, mode in modes.items():
        os.chmod(paths[path], mode)
    found = ended([PROGRAM, *words], folder, **NOBODY)[:3]
    for path in modes:
        os.chmod(paths[path], 0o755)
    journal = os.path.join(kept, FILES[2])
    return *found, content_of(journal) if os.path.exists(journal) else None


def check_modes():
    """Files and folders whose modes refuse what the program asks: a world, an upload stream or a module that may not be read, a journal that may not
    be read or written, and a folder in which no file may be looked for or made. A folder that may not be read alone is left as it is."""
    files = {"world.json": bytes_of(SMALL), "uploads.bin": b""}
    stands, last = {**files, FILES[2]: STANDING + LEFT}, text_of(STEPS[EARLIER - 1].world) + b"\n"
    run = ["run", *(os.path.join("kept", path) for path in FILES), "--ticks", "2"]
    outside = ["run", "world.json", "uploads.bin", *run[3:]]
    show, went_on = ["show", os.path.join("kept", FILES[2]), str(EARLIER)], (0, ticks_from(EARLIER, 2), b"")
    fault, kept = (7, b"", FAULTS[7]), STANDING + LEFT
    cases = {
        "a world file that may not be read": (run, {"world.json": 0}, stands, (5, b"", FAULTS[5], kept)),
        "an upload stream that may not be read": (run, {"uploads.bin": 0}, stands, (5, b"", FAULTS[5], kept)),
        "a journal of no rights": (run, {FILES[2]: 0}, stands, (*fault, kept)),
        "a journal that may be read alone": (run, {FILES[2]: 0o400}, stands, (*fault, kept)),
        "a journal that may be written alone": (run, {FILES[2]: 0o200}, stands, (*fault, kept)),
        "a show of a journal that may be read alone": (show, {FILES[2]: 0o400}, stands, (0, last, b"", kept)),
        "a show of a journal of no rights": (show, {FILES[2]: 0}, stands, (*fault, kept)),
        "a replay of a journal of no rights": (["replay", show[1]], {FILES[2]: 0}, stands, (*fault, kept)),
        "a module that may not be read": (["check", "kept/world.json"], {"world.json": 0}, files, (5, b"", FAULTS[5], None)),
        "a folder of no rights": (outside, {"": 0}, files, (*fault, None)),
        "a folder of no rights, with a journal": (outside, {"": 0}, stands, (*fault, kept)),
        "a folder in which nothing may be made": (run, {"": 0o500}, files, (*fault, None)),
        "a folder in which nothing may be made, with a journal": (run, {"": 0o500}, stands, (*went_on, WHOLE)),
        "a folder that may not be read": (run, {"": 0o300}, files, (0, ticks_from(0, 2), b"", STANDING)),
        "a folder that may not be read, with a journal": (run, {"": 0o300}, stands, (*went_on, WHOLE)),
    }
    with tempfile.TemporaryDirectory() as folder:
        os.chmod(folder, 0o755)
        if not runs_as_nobody(folder):
            print(f"{checks.path}: modes of files and folders were not looked at, since the user nobody may not run the program")
            return
    for name, (words, modes, here, wanted) in cases.items():
        with tempfile.TemporaryDirectory() as folder:
            os.chmod(folder, 0o755)
            write_files(folder, files)
            compared(name, under_modes(folder, words, modes, here), wanted)


def refused(folder, words, path):
    """How a command ends where the system refuses to open a path, and whether it did."""
    found, calls = traced(words, folder, *at_path(folder, path), "-e", f"trace={OPENS}", "-e", f"inject={OPENS}:error=EACCES")
    return found, [] if sum("INJECTED" in call for call in calls) == 1 else [f"{len(calls)} calls, of which {calls} were refused"]


def check_refused():
    """A path that the system refuses to open. Paths are given in full, as the calls are chosen by them."""
    kept = STANDING + LEFT
    with tempfile.TemporaryDirectory() as folder:
        folder = os.path.realpath(folder)
        paths = [os.path.join(folder, path) for path in FILES]
        run, module = ["run", *paths, "--ticks", "2"], os.path.join(folder, "module.wasm")
        cases = {
            "the world file": (run, FILES[0], (5, b"", FAULTS[5], kept)),
            "the upload stream": (run, FILES[1], (5, b"", FAULTS[5], kept)),
            "the journal": (run, FILES[2], (7, b"", FAULTS[7], kept)),
            "the journal's folder": (run, "", (0, ticks_from(EARLIER, 2), b"", WHOLE)),
            "the journal of a show": (["show", paths[2], "0"], FILES[2], (7, b"", FAULTS[7], kept)),
            "the journal of a replay": (["replay", paths[2]], FILES[2], (7, b"", FAULTS[7], kept)),
            "the module of a check": (["check", module], "module.wasm", (5, b"", FAULTS[5], kept)),
        }
        for name, (words, path, wanted) in cases.items():
            with_inputs(folder, **{FILES[2]: kept})
            found, faults = refused(folder, words, path)
            compared(f"the system refuses to open {name}", found, wanted, faults)
        forget_journal(folder)
        found, faults = refused(folder, run, FILES[2])
        faults += [f"{path} is there" for path in (FILES[2],) if os.path.exists(os.path.join(folder, path))]
        compared("the system refuses to make the journal", found, (7, b"", FAULTS[7], b""), faults)


# ---- calls that fail


class Start:
    """What a run finds as its journal: its bytes, how many frames stand in it, and how many calls of each kind it makes before its first frame, beside
    the sync of what it opens."""

    def __init__(self, name, kept, frames, **before):
        self.name, self.kept, self.frames = name, kept, frames
        self.before = {WRITES: before.get("writes", 0), SYNCS: 1 + before.get("syncs", 0), CUTS: before.get("cuts", 0)}
        self.left = TICKS + 1 - max(1, frames)

    def most(self, kinds):
        """How many calls of a kind a run makes to the last tick: of each frame, itself and its gate are written and synced."""
        return self.before[kinds] + (0 if kinds == CUTS else 2 * (TICKS + 1 - self.frames))

    def done(self, kinds, number):
        """How many frames a run has committed before the call of this number."""
        return self.frames if kinds == CUTS else self.frames + max(0, number - 1 - self.before[kinds]) // 2

    def lines(self, kinds, number):
        """What a run prints before the call of this number: first the opening line, once the world stands, and a bad end of the journal is cut."""
        first, done = max(0, self.frames - 1), self.done(kinds, number)
        return ticks_from(first, done - 1 - first) if done and number > self.before[kinds] else b""


STARTS = [
    Start("no journal", b"", 0, writes=1, syncs=1),
    Start("bytes behind a closed gate alone", b"\0" + LEFT, 0, syncs=1, cuts=1),
    Start("a journal", STANDING, 1 + EARLIER),
    Start("a journal and bytes behind its gate", STANDING + LEFT, 1 + EARLIER, syncs=1, cuts=1),
]
# (the others of a run that begins its journal are those of checks/failures.py)
KINDS = [(WRITES, "EIO"), (WRITES, "ENOSPC"), (SYNCS, "EIO"), (CUTS, "EIO")]
ELSEWHERE = {("no journal", WRITES, "ENOSPC"), ("no journal", SYNCS, "EIO")}


def stopped_faults(folder, start, kinds, number, error):
    """What is wrong where this call fails: the status, the lines, the frames that are left, and the run behind it."""
    status, out, err, kept = failing(words_of(start.left), folder, FILES[2], kinds, number, error, start.kept)
    done, lines, whole = start.done(kinds, number), start.lines(kinds, number), contents_of(WHOLE)
    faults = [] if (status, err) == (7, FAULTS[7]) else [f"exit status {status}, standard error {shown(err)}"]
    faults += [] if out == lines else [f"standard output {shown(out)}, wanted {shown(lines)}"]
    left = len(contents_of(kept))
    is_left = left in (done, done + 1) and contents_of(kept) == whole[:left]
    faults += [] if is_left else [f"the journal of {len(kept)} bytes is that of {left} frames, and not of the {done} before or one more"]
    return faults + went_on_faults(folder, STEPS, TICKS + 1 - max(1, left))


def check_unlocked(folder):
    """A journal that can't be locked, since somebody holds it or the file system has no locks: nothing is printed, and it stays as it was."""
    with_inputs(folder)
    for start in STARTS:
        for words, wanted in ((words_of(start.left), (7, b"", FAULTS[7], start.kept)), (["show", FILES[2], "0"], None)):
            most = calls_of(words, folder, FILES[2], LOCKS, start.kept)
            note(f"{start.name}: a {words[0]} {'locks it once' if wanted else 'asks for no lock'}", [] if most == (wanted is not None) else [f"{most} calls"])
            for error in ("EAGAIN", "ENOLCK", "EOPNOTSUPP") if wanted else ():
                found = failing(words, folder, FILES[2], LOCKS, 1, error, start.kept)
                compared(f"{start.name}: its lock fails by {error}", found, wanted)


def check_stops(folder):
    """Each write, sync and cut of the journal fails in its turn, where the run finds none, and where it goes on with one."""
    with_inputs(folder)
    for start in STARTS:
        for kinds, error in KINDS:
            if (start.name, kinds, error) in ELSEWHERE:
                continue
            most = calls_of(words_of(start.left), folder, FILES[2], kinds, start.kept)
            note(f"{start.name}: {kinds} are made", [] if most == start.most(kinds) else [f"{most} calls, wanted {start.most(kinds)}"])
            for number in range(1, most + 1):
                note(f"{start.name}: call {number} of {most} of {kinds} fails by {error}", stopped_faults(folder, start, kinds, number, error))


def check_lengths(folder):
    """The journal's length can't be told: nothing is printed, and it stays as it was."""
    with_inputs(folder)
    for start in STARTS:
        for words in (words_of(start.left), ["show", FILES[2], "0"], ["replay", FILES[2]]):
            most = calls_of(words, folder, FILES[2], LENGTHS, start.kept)
            note(f"{start.name}: a {words[0]} asks for its length", [] if most else ["it never does"])
            for number in range(1, most + 1):
                found = failing(words, folder, FILES[2], LENGTHS, number, "EIO", start.kept)
                compared(f"{start.name}: call {number} of {most} of a {words[0]} for its length fails", found, (7, b"", FAULTS[7], start.kept))


def check_interrupted(folder):
    """Each call of a kind is interrupted once, and made again: the run is as any other."""
    uploads = of_nobody(EARLIER, 3, 60_000)
    with_inputs(folder, **{"uploads.bin": stream_of(uploads)})
    steps = played(SMALL, TICKS, uploads)
    kept, whole = journal_of(SMALL, steps[:EARLIER]) + LEFT, journal_of(SMALL, steps)
    wanted = (0, output_of(steps[EARLIER - 1].world, steps[EARLIER:]), b"", whole)
    kinds = [(FILES[0], READS), (FILES[1], READS), *((FILES[2], kinds) for kinds in (READS, WRITES, SYNCS, CUTS)), ("", SYNCS)]
    words = ["run", *(os.path.join(os.path.realpath(folder), path) for path in FILES), "--ticks", str(TICKS - EARLIER)]
    for path, names in [*kinds, *((path, OPENS) for path in (*FILES, ""))]:
        write_files(folder, {FILES[2]: kept})
        # (every other call, and so each that is made again goes on)
        options = ("-e", f"trace={names}", "-e", f"inject={names}:error=EINTR:when=1+2")
        found, calls = traced(words, folder, *at_path(folder, path), *options)
        is_hit = sum("INJECTED" in call for call in calls)
        compared(f"each of {names} of {path or 'the folder'} is interrupted", found, wanted, [] if is_hit else ["none was"])


def check_calls():
    reason = may_trace()
    if reason:
        print(f"{checks.path}: no call was made to fail, since {reason}")
        return
    check_refused()
    for of in (check_unlocked, check_stops, check_lengths, check_interrupted):
        with tempfile.TemporaryDirectory() as folder:
            of(folder)


def main():
    check_outputs()
    check_closed()
    check_sizes()
    check_pipes()
    check_two_runs()
    check_places()
    check_modes()
    check_calls()
    checks.finish()


main()
