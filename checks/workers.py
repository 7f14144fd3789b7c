#!/usr/bin/env python3
"""What several workers make of a run: the same lines and the same journal, byte for byte, with any number of them.

It runs behind `rt ci`, which builds crates/world_server/out/world_server. Random colonies in which all actions are drawn are run by 1, 2, 3, 7 and 16
workers, and compared with what oracle/game.py makes of them; then worlds that `gen` makes, by words in each order that is taken. A run that is killed
while four workers are at work goes on to the file of one run. Where `strace` is installed and may trace, no thread can be made, or only some; where a
C compiler is, each allocation of a run by four workers is refused in its turn; where `taskset` is, the tests at a gate run on one processor; and where `valgrind` is, its
drd looks for data races. With a number in place of 200, so many colonies are drawn.
"""

import os
import random
import shutil
import struct
import subprocess
import sys
import tempfile
import time

TOP = os.path.dirname(os.path.dirname(os.path.abspath(__file__)))
sys.path[:0] = [os.path.join(TOP, it) for it in ("oracle", "checks/harness")]
from checked_program import PROGRAM, Checks, content_of, run, shown, write_files  # noqa: E402
from colonies import CALLS, Draw, changes_between  # noqa: E402
from drawn_runs import count_into, drawn, note_counts  # noqa: E402
from failing_calls import FILES, ended, forget_journal, may_trace  # noqa: E402
from game import ACTIONS  # noqa: E402
from journal_reader import read, start_line, tick_lines  # noqa: E402
from worlds import bytes_of, contents_of, gated, journal_of, output_of, room, stream_of, thing, world  # noqa: E402

checks = Checks(__file__)
note = checks.note

NUMBERS = (1, 2, 3, 7, 16)
COLONIES = 200
TICKS = 4
USAGE = b"fault 2 Usage\n"
MEMORY = b"fault 11 Memory\n"


def words_by(workers, ticks=TICKS, journal=FILES[2]):
    return ["run", FILES[0], FILES[1], journal, "--ticks", str(ticks), "--workers", str(workers)]


def by_each(folder, ticks, numbers=NUMBERS):
    """What is printed and kept of a run by each of these numbers of workers, each on a journal of its own."""
    found = {}
    for workers in numbers:
        journal = f"journal.{workers}"
        status, out, err = run(words_by(workers, ticks, journal), folder)
        kept = content_of(os.path.join(folder, journal)) if os.path.exists(os.path.join(folder, journal)) else None
        found[workers] = status, out, err, kept
    return found


def faults_between(found, wanted):
    """What is wrong where each of these runs should have ended as wanted."""
    names = ("exit status", "standard output", "standard error", "the journal")
    return [
        f"{workers} workers, {name}: {shown(got)}, wanted {shown(want)}"
        for workers, one in found.items()
        for name, got, want in zip(names, one, wanted)
        if got != want
    ]


# ---- the same bytes


def check_colonies(count):
    """Random colonies of some rooms. All actions come, and nothing tells how many worked."""
    done = {}
    for seed in range(count):
        draw = Draw(10_000 + seed)
        first = draw.world(draw.random.randint(1, 9))
        uploads, steps, counts = drawn(first, TICKS, (1, 2, 3), draw.calls, changes_between)
        count_into(done, counts)
        with tempfile.TemporaryDirectory() as folder:
            write_files(folder, {FILES[0]: bytes_of(first), FILES[1]: stream_of(uploads)})
            found = by_each(folder, TICKS)
        note(f"colonies of seed {seed}", faults_between(found, (0, output_of(first, steps), b"", journal_of(first, steps))), len(NUMBERS))
    if count == COLONIES:
        least = {(name, True): 30 for name in ACTIONS} | {(name, False): 5 for name in CALLS}
        note_counts(checks, "of all that colonies do there is enough", done, {**least, "a creep came": 100, "a controller was claimed": 20})


def check_generated():
    """A hundred rooms of eight players for twenty ticks."""
    with tempfile.TemporaryDirectory() as folder:
        write_files(folder, {name: run(["gen", "7", "100", part], folder)[1] for name, part in zip(FILES, ("world", "uploads"))})
        found = by_each(folder, 20, (1, 2, 16))
    lines = found[1][1].decode().splitlines()
    note("a hundred rooms", faults_between(found, (0, found[1][1], b"", found[1][3])), 3)
    uploads = [line for line in lines if line.startswith("upload ")]
    note("their uploads", [] if uploads == [f"upload player {number} accepted" for number in range(1, 9)] else [shown(uploads)])
    players = [line for line in lines if line.startswith("player ")]
    wrong = [line for line in players if line.split()[2] != "finished"] + [f"{len(players)} lines"] * (len(players) != 8 * 20)
    note("their players", wrong)


# ---- words


def check_words():
    """Words of a number of workers, in and out of its range, and in each place."""
    with tempfile.TemporaryDirectory() as folder:
        write_files(folder, {FILES[0]: content_of(os.path.join(TOP, "worlds/small.json")), FILES[1]: b""})
        wanted = run(["run", *FILES, "--ticks", "1"], folder)[1]
        taken = [
            ["run", *FILES, "--ticks", "1", "--workers", "16"],
            ["run", *FILES, "--ticks", "1", "--workers=2"],
            ["run", "--workers", "0002", *FILES, "--ticks", "1"],
            ["run", FILES[0], "--workers=3", FILES[1], "--ticks=1", FILES[2]],
        ]
        for words in taken:
            forget_journal(folder)
            found = run(words, folder)
            note(f"the words {words}", [] if found == (0, wanted, b"") else [shown(found)])
        forget_journal(folder)
        numbers = ("17", "0", "-1", "=2", "+2", "", "two", "1.0", "0x2", str(2**32 + 2))
        refused = [["--workers", number] for number in numbers]
        refused += [["--workers", "2", "--workers", "2"], ["--workers=2", "--workers=2"], ["--workers"], ["--worker", "2"], ["-w", "2"]]
        for more in refused:
            words = ["run", *FILES, "--ticks", "1", *more]
            found = run(words, folder)
            note(f"the words {words}", [] if found == (2, b"", USAGE) else [shown(found)])
        for words in (["check", "--workers", "2", "m"], ["replay", FILES[2], "--workers", "2"], ["show", FILES[2], "1", "--workers", "2"]):
            found = run(words, folder)
            note(f"the words {words}", [] if found == (2, b"", USAGE) else [shown(found)])
        note("no journal is made", [shown(os.listdir(folder))] if os.path.exists(os.path.join(folder, FILES[2])) else [])


def check_serials():
    """The tick runs with the last serials that are enough, and not with one more."""
    for next_serial, wanted in ((4_293_918_720, (0, b"")), (4_293_918_721, (10, b"fault 10 IdsExhausted 0\n"))):
        first = world(room("E0S0", next_serial, thing("pile", 2, 20, 20, energy=1001)))
        with tempfile.TemporaryDirectory() as folder:
            write_files(folder, {FILES[0]: bytes_of(first), FILES[1]: b""})
            for workers, (status, _, err, _) in by_each(folder, 1, (1, 2, 16)).items():
                note(f"serials from {next_serial} on, {workers} workers", [] if (status, err) == wanted else [f"{status}, {shown(err)}"])


# ---- stops


def write_sample(folder, rooms):
    write_files(folder, {name: run(["gen", "7", str(rooms), part], folder)[1] for name, part in zip(FILES, ("world", "uploads"))})


def killed_after(folder, ticks, seconds):
    """Kills a run by four workers after so long, and says whether it was still at work."""
    with subprocess.Popen([PROGRAM, *words_by(4, ticks)], cwd=folder, stdin=subprocess.DEVNULL, stdout=subprocess.DEVNULL) as it:
        time.sleep(seconds)
        was_at_work = it.poll() is None
        it.kill()
    return was_at_work


def check_kills(kills=20, ticks=60):
    """A run of four workers is killed; the next ones make what is left."""
    draw = random.Random(4)
    with tempfile.TemporaryDirectory() as folder:
        write_sample(folder, 100)
        began = time.monotonic()
        wanted = ended([PROGRAM, *words_by(4, ticks)], folder)
        whole, contents = time.monotonic() - began, contents_of(wanted[3])
        journals = {gated(contents[: 1 + count]): count for count in range(ticks + 1)}
        hit = 0
        for kill in range(kills):
            forget_journal(folder)
            hit += killed_after(folder, ticks, draw.uniform(0, whole))
            path = os.path.join(folder, FILES[2])
            left = max(0, len(contents_of(content_of(path))) - 1) if os.path.exists(path) else 0
            status, _, err, kept = ended([PROGRAM, *words_by(4, ticks - left)], folder)
            is_done = (status, err, journals.get(kept)) == (0, b"", ticks)
            note(f"kill {kill + 1}, {left} ticks left", [] if is_done else [f"exit status {status}, {shown(err)}, a journal of {len(kept)} bytes"])
        note("some kills hit a run at work", [] if hit * 4 > kills else [f"{hit} of {kills}"])


def check_no_threads():
    """Where no thread can be made, or not each, the lines and the journal are the same."""
    why = may_trace()
    if why:
        print(f"no thread was refused: {why}")
        return
    with tempfile.TemporaryDirectory() as folder:
        write_sample(folder, 9)
        wanted = ended([PROGRAM, *words_by(1, 3)], folder)
        for when in ("1+", "1", "2+", "1+2", "5+3"):
            forget_journal(folder)
            trace = ["strace", "-f", "-qq", "-o", os.devnull, "-e", "trace=clone,clone3", "-e", f"inject=clone,clone3:error=EAGAIN:when={when}"]
            found = ended([*trace, PROGRAM, *words_by(4, 3)], folder)
            note(f"threads {when} are refused", faults_between({4: found}, wanted))


def check_races():
    """valgrind's drd, which follows each access of memory by each thread, finds no data race in ten ticks of two colonies by four workers."""
    if not shutil.which("valgrind"):
        print("no data race was looked for: valgrind is not installed")
        return
    with tempfile.TemporaryDirectory() as folder:
        write_files(folder, {name: content_of(os.path.join(TOP, f"worlds/colonies.{kind}")) for name, kind in zip(FILES, ("json", "uploads"))})
        wanted = ended([PROGRAM, *words_by(1, 10)], folder)
        forget_journal(folder)
        found = ended(["valgrind", "-q", "--tool=drd", "--error-exitcode=99", PROGRAM, *words_by(4, 10)], folder)
        note("ten ticks of two colonies under drd", faults_between({4: found}, wanted))


GATE_TESTS = ("two_workers_step_two_rooms", "two_workers_run_two_players")


def check_gate(runs=100):
    """The tests in which a gate holds a job until another worker has begun one pass on one processor too, and fail where there is no other worker."""
    tests = os.path.join(os.path.dirname(PROGRAM), "../../device_examples/out/device_examples_tests")
    if not os.path.isfile(tests) or not shutil.which("taskset"):
        print("no gate was held on one processor: the tests of device_examples are not built, or taskset is not installed")
        return
    for test in GATE_TESTS:
        command = [tests, f"shared_tests::{test}"]
        done = [subprocess.run(["taskset", "-c", "0", *command], capture_output=True, timeout=60).returncode for _ in range(runs)]
        note(f"{test} on one processor", [f"exit status {status}" for status in done if status], runs)
        # (a gate that waits in vain yields ten million times, which no tracer may stop)
        refused = ["strace", "-f", "--seccomp-bpf", "-qq", "-o", os.devnull, "-e", "trace=clone,clone3", "-e", "inject=clone,clone3:error=EAGAIN"]
        if not may_trace() and subprocess.run([*refused, "true"], capture_output=True, timeout=60).returncode == 0:
            ended_so = subprocess.run([*refused, *command], capture_output=True, timeout=120)
            is_refused = ended_so.returncode != 0 and b"test stopped" in ended_so.stdout + ended_so.stderr
            note(f"{test} without another thread", [] if is_refused else [f"exit status {ended_so.returncode}"])


def check_refused_memory(most=400):
    """Each allocation of a run by four workers is refused in its turn: the tick ends with no memory, or could do without."""
    if not shutil.which("cc"):
        print("no memory was refused: no C compiler is installed")
        return
    with tempfile.TemporaryDirectory() as folder:
        library, counter = os.path.join(folder, "refusing.so"), os.path.join(folder, "count")
        subprocess.run(["cc", "-O1", "-fPIC", "-shared", "-o", library, os.path.join(TOP, "checks/harness/refusing.c")], check=True)
        home = os.path.join(folder, "run")
        os.mkdir(home)
        write_files(home, {FILES[0]: content_of(os.path.join(TOP, "worlds/colonies.json")), FILES[1]: content_of(os.path.join(TOP, "worlds/colonies.uploads"))})

        def refused(number):
            forget_journal(home)
            write_files(folder, {"count": bytes(8)})
            environment = {**os.environ, "LD_PRELOAD": library, "REFUSED_COUNT": counter, "REFUSED_NUMBER": str(number)}
            return ended([PROGRAM, *words_by(4, 2)], home, env=environment), struct.unpack("<Q", content_of(counter))[0]

        wanted, count = refused(0)
        journal = read(wanted[3])
        lines = [start_line(journal.worlds[0]), *(tick_lines(*it) for it in zip(journal.records, journal.worlds[1:]))]
        stages = {("".join(lines[: 1 + ticks]).encode(), gated(contents_of(wanted[3])[: 1 + ticks])) for ticks in range(len(lines))} | {(b"", b"")}
        ends = {}
        for number in sorted({1 + at * max(1, count // most) for at in range(most)}):
            if number <= count:
                found, _ = refused(number)
                status, out, err, kept = found
                is_right = found == wanted or (status == 11 and err == MEMORY and (out, kept) in stages)
                ends[status] = ends.get(status, 0) + 1
                note(f"allocation {number} of {count} is refused", [] if is_right else [f"exit status {status}, {shown(out)}, {shown(err)}, {len(kept)} bytes"])
        note("refusals end runs", [] if ends.get(11, 0) > 50 and set(ends) <= {0, 11} else [shown(ends)])


def main():
    count = int(sys.argv[1]) if sys.argv[1:] else COLONIES
    check_words()
    check_serials()
    check_generated()
    check_no_threads()
    check_gate()
    check_races()
    check_kills()
    check_refused_memory()
    check_colonies(count)
    checks.finish()


main()
