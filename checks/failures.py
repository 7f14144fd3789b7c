#!/usr/bin/env python3
"""What the built program does where something outside of it fails: memory runs out, standard output is closed, a file fails in the middle of its
reading, the disk fails, and what is written at once is many MiB long.

It runs behind `rt ci`, which builds crates/world_server/out/world_server. Runs under a limit of memory (RLIMIT_AS) end by status 11, and what is left
has to be whole ticks, each with its lines. Where `strace` is installed and may trace, it lets single reads, writes and syncs fail, and tells in which
order the journal is written and synced and lines are printed. What is compared with comes from oracle/worlds.py. What becomes of files that may not
be opened, and of runs that go on with a journal and are stopped, is the subject of checks/stops.py.
"""

import fcntl
import os
import re
import resource
import subprocess
import sys
import tempfile

TOP = os.path.dirname(os.path.dirname(os.path.abspath(__file__)))
sys.path[:0] = [os.path.join(TOP, it) for it in ("oracle", "checks/harness")]
from checked_program import PROGRAM, Checks, content_of, shown, write_files  # noqa: E402
from failing_calls import (  # noqa: E402
    FILES,
    READS,
    SYNCS,
    WRITES,
    at_path,
    calls_of,
    ended,
    failing,
    forget_journal,
    may_trace,
    of_nobody,
    traced,
    went_on_faults,
    words_of,
)
from game import SECOND, thing  # noqa: E402
from module_bytes import module  # noqa: E402
from worlds import MIB, SMALL, bytes_of, contents_of, journal_of, output_of, played, room, start_line, stream_of, text_of, world  # noqa: E402

checks = Checks(__file__)
check, note = checks.check, checks.note

TICKS = 4
FAULTS = {5: b"fault 5 ReadFault\n", 6: b"fault 6 WriteFault\n", 7: b"fault 7 DiskFault\n", 11: b"fault 11 Memory\n"}


def whole_ticks(first, steps, out, kept):
    """How many whole ticks have just these lines and are just this journal, or None."""
    for count in range(len(steps) + 1):
        if out == output_of(first, steps[:count]) and kept == journal_of(first, steps[:count]):
            return count
    return None


# ---- memory


def within(limit):
    """What a process does at its start to have so many bytes of memory at most."""
    return lambda: resource.setrlimit(resource.RLIMIT_AS, (limit, limit))


def least_limit(folder):
    """A limit under which the program begins at all, but for a MiB."""
    return next(limit for limit in range(MIB, 512 * MIB, MIB) if ended([PROGRAM, "--version"], folder, preexec_fn=within(limit))[0] == 0)


def fault_line_faults(status, err):
    """(a line is left out where there is no memory for it)"""
    wanted = (b"",) if status == 0 else (b"", FAULTS[11])
    return [] if err in wanted else [f"standard error {shown(err)}"]


def check_memory_of_runs(folder, least):
    """A run whose third tick has uploads of 40 MiB, under limits from one where it hardly begins to one where it is done."""
    uploads = of_nobody(2, 40, MIB)
    steps = played(SMALL, TICKS, uploads)
    write_files(folder, {"world.json": bytes_of(SMALL), "uploads.bin": stream_of(uploads)})
    found, said = set(), 0
    for limit in range(least, least + 1024 * MIB, 8 * MIB):
        forget_journal(folder)
        status, out, err, kept = ended([PROGRAM, *words_of(TICKS)], folder, preexec_fn=within(limit))
        count = -1 if (out, kept) == (b"", b"") else whole_ticks(SMALL, steps, out, kept)
        faults = [] if status in (0, 11) else [f"exit status {status}"]
        faults += [] if count is not None and (status == 11 or count == TICKS) else [f"no whole ticks: {len(kept)} bytes, {shown(out)}"]
        note(f"a run within {limit // MIB} MiB", faults + fault_line_faults(status, err))
        found |= set() if count is None else {count}
        said += err == FAULTS[11]
        if status == 0:
            break
    note("memory ran out before the run, after some ticks, and not at all", [] if {-1, TICKS} < found else [f"whole ticks: {found}"])
    note("the fault line of status 11", [] if said else ["it never came"])


def check_memory_of_inputs(folder, least):
    """Inputs that are longer than memory lets them be, or want more than they are long."""
    fault = (11, b"", FAULTS[11], b"")
    inputs = {
        "a world file of 64 MiB": {"world.json": 64 * MIB, "uploads.bin": b""},
        "a stream of 256 MiB": {"world.json": bytes_of(SMALL), "uploads.bin": 256 * MIB},
    }
    for name, files in inputs.items():
        write_files(folder, files)
        forget_journal(folder)
        found = ended([PROGRAM, *words_of(1)], folder, preexec_fn=within(least + 48 * MIB))
        note(f"{name}, where there are 48 MiB", [] if found == fault else [f"{shown(found)}, wanted {shown(fault)}"])


def check_memory_of_journals(folder, least):
    """A journal that is longer than memory lets it be is gone on with, shown and replayed: its frames are held one at a time."""
    ticks = 60
    uploads = [entry for tick in range(ticks) for entry in of_nobody(tick, 1, MIB)]
    steps = played(SMALL, ticks, uploads)
    kept = journal_of(SMALL, steps)
    write_files(folder, {"world.json": bytes_of(SMALL), "uploads.bin": b"", FILES[2]: kept})
    shown_world = text_of(steps[-1].world) + b"\n"
    calls = {
        "replayed": (["replay", FILES[2]], b"replayed %d\n" % ticks),
        "shown": (["show", FILES[2], str(ticks)], shown_world),
        "gone on with": (words_of(0), start_line(steps[-1].world).encode()),
    }
    for name, (words, out) in calls.items():
        found = ended([PROGRAM, *words], folder, preexec_fn=within(least + 16 * MIB))
        wanted = (0, out, b"", bounded(kept))
        note(f"a journal of {len(kept) // MIB} MiB, {name} where there are 16 MiB", [] if found == wanted else [f"{shown(found)}, wanted {shown(wanted)}"])


def most_memory(folder):
    """The exit status of a run of a tick, and the most bytes of memory that it held at once."""
    forget_journal(folder)
    run = subprocess.Popen([PROGRAM, *words_of(1)], cwd=folder, stdin=subprocess.DEVNULL, stdout=subprocess.DEVNULL, stderr=subprocess.DEVNULL)
    _, status, used = os.wait4(run.pid, 0)
    run.returncode = os.waitstatus_to_exitcode(status)
    return run.returncode, used.ru_maxrss * 1024


def check_memory_of_uploads(folder):
    """A tick's uploads of nobody, a million without bytes or some of a MiB, take at most 2.5 times their stream, with the journal's frame and the lines."""
    write_files(folder, {"world.json": bytes_of(SMALL), "uploads.bin": b""})
    _, least = most_memory(folder)
    for count, length in ((1_000_000, 0), (31, MIB)):
        stream = stream_of(of_nobody(0, count, length))
        write_files(folder, {"uploads.bin": stream})
        status, most = most_memory(folder)
        times = (most - least) / len(stream)
        note(f"{count} uploads of {length} bytes take at most 2.5 times their stream", [] if status == 0 and times <= 2.5 else [f"exit status {status}, {times:.2f} times"])


def check_memory_of_checks(folder, least):
    """The check of a module of a mebibyte, under limits from one where it hardly begins on."""
    write_files(folder, {"module.wasm": module([b"\x01" * 95] * 9_999)})
    found = set()
    for limit in range(least, least + 128 * MIB, MIB // 2):
        status, out, err, _ = ended([PROGRAM, "check", "module.wasm"], folder, preexec_fn=within(limit))
        faults = [] if (status, out) in ((0, b"accepted\n"), (11, b"")) else [f"exit status {status}, standard output {shown(out)}"]
        note(f"a check within {limit / MIB} MiB", faults + fault_line_faults(status, err))
        found.add(status)
        if status == 0:
            break
    note("memory ran out in a check, and then not", [] if found == {0, 11} else [f"exit statuses {found}"])


def check_memory():
    with tempfile.TemporaryDirectory() as folder:
        least = least_limit(folder)
        check_memory_of_runs(folder, least)
        check_memory_of_inputs(folder, least)
        check_memory_of_journals(folder, least)
        check_memory_of_uploads(folder)
        check_memory_of_checks(folder, least)


# ---- standard output


def closed_after(most, folder, ticks, **others):
    """Runs with a pipe as standard output that holds as little as may be, of which so many bytes are read before it is closed: what was read, how much
    the pipe holds, and the exit status, standard error and journal."""
    reader, writer = os.pipe()
    holds = fcntl.fcntl(writer, fcntl.F_SETPIPE_SZ, 4096)
    run = subprocess.Popen([PROGRAM, *words_of(ticks)], cwd=folder, stdin=subprocess.DEVNULL, stdout=writer, stderr=subprocess.PIPE, **others)
    os.close(writer)
    got = b""
    while len(got) < most:
        piece = os.read(reader, most - len(got))
        if not piece:
            break
        got += piece
    os.close(reader)
    _, err = run.communicate(timeout=120)
    return got, holds, (run.returncode, err, content_of(os.path.join(folder, FILES[2])))


def ticks_until(steps, got, holds):
    """The numbers of ticks that may be in the journal where output failed after these bytes and at most as many more as the pipe holds: the lines of
    all but the last one are written, and those of the last one are not read to their end."""
    for at in range(len(steps) + 1):
        lines = output_of(SMALL, steps[:at])
        before = output_of(SMALL, steps[: at - 1]) if at else b""
        if len(before) > len(got) + holds:
            return
        if len(lines) > len(got) or lines == got:
            yield at


def check_pipes():
    """A pipe that nobody reads any more is an output that fails, also where the program starts with the signal SIGPIPE as it is by itself, which would
    end it: the program passes it over."""
    ticks = 2000
    steps = played(SMALL, ticks)
    lines = output_of(SMALL, steps)
    for most in (0, 1, len(start_line(SMALL)), 100, 4097):
        for passed_over in (True, False):
            with tempfile.TemporaryDirectory() as folder:
                write_files(folder, {"world.json": bytes_of(SMALL), "uploads.bin": b""})
                got, holds, (status, err, kept) = closed_after(most, folder, ticks, restore_signals=not passed_over)
            faults = [] if (status, err) == (6, FAULTS[6]) else [f"exit status {status}, standard error {shown(err)}"]
            faults += [] if got == lines[:most] else [f"standard output {shown(got)}"]
            is_whole = any(kept == journal_of(SMALL, steps[:at]) for at in ticks_until(steps, got, holds))
            faults += [] if is_whole else [f"the journal of {len(kept)} bytes is none of whole ticks up to the one whose lines failed"]
            note(f"a pipe that is closed after {most} bytes, SIGPIPE {'passed over' if passed_over else 'as usual'}", faults)


# ---- much at once


def check_long_writes():
    uploads = of_nobody(1, 40, MIB)
    steps = played(SMALL, 3, uploads)
    files = {"world.json": bytes_of(SMALL), "uploads.bin": stream_of(uploads)}
    check("a frame of 40 MiB", words_of(3), files, 0, output_of(SMALL, steps), after={"journal.bin": bounded(journal_of(SMALL, steps))})
    uploads = of_nobody(0, 1_000_000, 0)
    steps = played(SMALL, 1, uploads)
    files = {"world.json": bytes_of(SMALL), "uploads.bin": stream_of(uploads)}
    check("a million entries in a tick", words_of(1), files, 0, output_of(SMALL, steps), after={"journal.bin": bounded(journal_of(SMALL, steps))})


def bounded(content):
    """The content as a file of it is compared, which has its hash alone where it is very long."""
    with tempfile.TemporaryDirectory() as folder:
        write_files(folder, {"it": content})
        return content_of(os.path.join(folder, "it"))


# ---- calls that fail

# A world whose file is longer than one read takes.
LONG = world(*[room(f"E{n % 20}S{n // 20}", 30, *[thing("pile", n * SECOND + k, k, 3, energy=10**6) for k in range(1, 25)]) for n in range(100)])


def check_sources(folder):
    """Each read of an input fails in its turn: the first, those in the middle, and the one that would tell the end."""
    uploads = of_nobody(0, 3, 60_000)
    write_files(folder, {"world.json": bytes_of(LONG), "uploads.bin": stream_of(uploads), "module.wasm": module([b"\x01" * 95] * 9_999)})
    for path, words in (("world.json", words_of(1)), ("uploads.bin", words_of(1)), ("module.wasm", ["check", "module.wasm"])):
        most = calls_of(words, folder, path, READS)
        note(f"{path} is read in pieces", [] if most > 2 else [f"{most} reads"])
        for number in sorted({1, 2, 3, most // 2, most - 1, most} - {0}):
            found = failing(words, folder, path, READS, number, "EIO")
            wanted = (5, b"", FAULTS[5], b"")
            note(f"read {number} of {most} of {path} fails", [] if found == wanted else [f"{shown(found)}, wanted {shown(wanted)}"])


def check_disk(folder):
    """Each write and each sync of the journal fails in its turn: what was printed are the lines of the frames before it, which the journal stands for,
    or for these and the one that was being written; and the next run goes on from there."""
    write_files(folder, {"world.json": bytes_of(SMALL), "uploads.bin": b""})
    steps = played(SMALL, TICKS)
    whole = contents_of(journal_of(SMALL, steps))
    for kinds, error in ((WRITES, "ENOSPC"), (SYNCS, "EIO")):
        most = calls_of(words_of(TICKS), folder, FILES[2], kinds)
        # (the closed gate that it begins with, and of each frame itself and its gate; and the journal is synced once as it is opened)
        before = 2 if kinds == SYNCS else 1
        note(f"{kinds} of the journal are made, as many for each frame", [] if most == before + 2 * (TICKS + 1) else [f"{most} calls"])
        for number in range(1, most + 1):
            status, out, err, kept = failing(words_of(TICKS), folder, FILES[2], kinds, number, error)
            frames = max(0, number - 1 - before) // 2
            lines = output_of(SMALL, steps[: frames - 1]) if frames else b""
            faults = [] if (status, err) == (7, FAULTS[7]) else [f"exit status {status}, standard error {shown(err)}"]
            faults += [] if out == lines else [f"standard output {shown(out)}, wanted {shown(lines)}"]
            left = len(contents_of(kept))
            is_left = left in (frames, frames + 1) and contents_of(kept) == whole[:left]
            faults += [] if is_left else [f"the journal of {len(kept)} bytes is that of {left} frames, and not of the {frames} before or one more"]
            faults += went_on_faults(folder, steps, TICKS + 1 - max(1, left))
            note(f"call {number} of {most} of {kinds} fails", faults)


def check_folder(folder):
    """A new journal's name outlasts a crash, since its folder is synced, once a run and before anything else; a run goes on where the file system
    syncs no folder, and ends where it fails."""
    write_files(folder, {"world.json": bytes_of(SMALL), "uploads.bin": b""})
    steps = played(SMALL, TICKS)
    at_folder = ("-P", os.path.realpath(folder), "-e", f"trace={SYNCS}")
    lines, kept = output_of(SMALL, steps), journal_of(SMALL, steps)
    wanted = {None: (0, lines, b"", kept), "EINVAL": (0, lines, b"", kept), "EIO": (7, b"", FAULTS[7], b"")}
    names = {None: "the journal's folder is synced", "EINVAL": "a file system syncs no folder", "EIO": "the sync of the journal's folder fails"}
    for error, left in wanted.items():
        forget_journal(folder)
        found, calls = traced(words_of(TICKS), folder, *at_folder, *(("-e", f"inject={SYNCS}:error={error}") if error else ()))
        faults = [] if len(calls) == 1 else [f"{len(calls)} calls"]
        note(names[error], faults + ([] if found == left else [f"{shown(found)}, wanted {shown(left)}"]))


def check_kept(folder):
    """Each read of a journal that stands there fails in its turn: nothing is printed, and it stays as it was."""
    write_files(folder, {"world.json": bytes_of(SMALL), "uploads.bin": b""})
    kept = journal_of(SMALL, played(SMALL, TICKS)) + b"left"
    most = calls_of(words_of(1), folder, FILES[2], READS, kept)
    note("the journal is read frame by frame", [] if most > TICKS else [f"{most} reads"])
    for number in range(1, most + 1):
        found = failing(words_of(1), folder, FILES[2], READS, number, "EIO", kept)
        wanted = (7, b"", FAULTS[7], kept)
        note(f"read {number} of {most} of the journal fails", [] if found == wanted else [f"{shown(found)}, wanted {shown(wanted)}"])


def check_output(folder):
    """A write to standard output fails."""
    write_files(folder, {"world.json": bytes_of(SMALL), "uploads.bin": b""})
    steps = played(SMALL, TICKS)
    for number in range(1, TICKS + 2):
        forget_journal(folder)
        options = ["-e", "trace=write,writev", "-e", f"inject=write,writev:error=EIO:when={number}"]
        with open(os.path.join(folder, "lines"), "wb") as sink:
            trace = os.path.join(folder, "trace")
            command = ["strace", "-f", "-qq", "-o", trace, *at_path(folder, "lines"), *options, PROGRAM, *words_of(TICKS)]
            done = subprocess.run(command, cwd=folder, stdin=subprocess.DEVNULL, stdout=sink, stderr=subprocess.PIPE, timeout=120)
        out, kept = content_of(os.path.join(folder, "lines")), content_of(os.path.join(folder, FILES[2]))
        wanted = (6, FAULTS[6], output_of(SMALL, steps[: number - 2]) if number > 1 else b"", journal_of(SMALL, steps[: number - 1]))
        found = (done.returncode, done.stderr, out, kept)
        note(f"write {number} to standard output fails", [] if found == wanted else [f"{shown(found)}, wanted {shown(wanted)}"])


def check_interrupted(folder):
    """A call that a signal interrupts is made again: the run is as any other."""
    uploads = of_nobody(0, 3, 60_000)
    write_files(folder, {"world.json": bytes_of(SMALL), "uploads.bin": stream_of(uploads)})
    steps = played(SMALL, TICKS, uploads)
    wanted = (0, output_of(SMALL, steps), b"", journal_of(SMALL, steps))
    for path, kinds in ((FILES[0], READS), (FILES[1], READS), (FILES[2], WRITES), (FILES[2], SYNCS)):
        found = failing(words_of(TICKS), folder, path, kinds, 2, "EINTR")
        note(f"{kinds} of {path} is interrupted", [] if found == wanted else [f"{shown(found)}, wanted {shown(wanted)}"])


def order_faults(calls):
    """What is wrong of the order of these calls: lines are printed once all that was written into the journal is synced, and something was; and each
    write into it is synced before the next."""
    faults, written, dirty, prints, syncs = [], False, False, 0, 0
    for call in calls:
        found = re.match(r"(?:\d+ +)?(\w+)\((\d+)<([^>]*)>.* = (-?\d+)", call)
        if not found or int(found[4]) < 0:
            continue
        kind, number, path = found[1], int(found[2]), found[3]
        if os.path.basename(path) == FILES[2]:
            is_sync = kind in SYNCS.split(",")
            faults += ["the journal is written twice without a sync"] if dirty and not is_sync else []
            written, dirty, syncs = written or not is_sync, not is_sync, syncs + is_sync
        elif number == 1:
            faults += ["lines are printed of a frame that is not synced"] if dirty else []
            prints += written
            written = False
    return faults, prints, syncs


def check_syncs(folder):
    write_files(folder, {"world.json": bytes_of(SMALL), "uploads.bin": b""})
    forget_journal(folder)
    found, calls = traced(words_of(TICKS), folder, "-e", f"trace={WRITES},{SYNCS},ftruncate")
    steps = played(SMALL, TICKS)
    wanted = (0, output_of(SMALL, steps), b"", journal_of(SMALL, steps))
    note("a run that is traced", [] if found == wanted else [f"{shown(found)}, wanted {shown(wanted)}"])
    faults, prints, syncs = order_faults(calls)
    note("each frame is synced before its gate is opened, and this before its lines are printed", faults)
    note("each frame has lines of its own", [] if prints == TICKS + 1 else [f"lines of {prints} frames, wanted {TICKS + 1}"])
    wanted = 1 + 2 * (TICKS + 1)
    note("each frame is synced", [] if syncs >= wanted else [f"{syncs} syncs, wanted {wanted} at least"])


def check_calls():
    reason = may_trace()
    if reason:
        print(f"{checks.path}: no call was made to fail, and the order of writes and syncs was not looked at, since {reason}")
        return
    for of in (check_sources, check_disk, check_folder, check_kept, check_output, check_interrupted, check_syncs):
        with tempfile.TemporaryDirectory() as folder:
            of(folder)


def main():
    check_memory()
    check_pipes()
    check_long_writes()
    check_calls()
    checks.finish()


main()
