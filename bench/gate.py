#!/usr/bin/env python3
"""Runs `rt ci` with the words behind this one's name, and prints the minutes of processor time that it took,
by crate and kind of work: the proof of the crate, that of its tests, its must-fail edits.

Run it in the repository's top folder. Only what the run proves anew takes time: `bench/gate.py --anew` measures
the gate from nothing. The times are read from /proc four times a second, so what a process does in its last
quarter of a second is lost. Where it is ended early, by SIGTERM or an interrupt, it prints what was used so far.
With RT_JOBS=N in the environment there are N lanes with one check each; else a check takes up to four processors while
nothing else can be proved, which costs more of their time.
"""

import collections
import os
import signal
import subprocess
import sys
import time

TICKS = os.sysconf("SC_CLK_TCK")
KINDS = ("proof", "tests", "edits", "other")


def stat_of(pid):
    """The session of a process, when it was started, and the ticks of processor time so far."""
    with open(f"/proc/{pid}/stat", encoding="utf-8", errors="replace") as it:
        fields = it.read().rpartition(")")[2].split()
    return int(fields[3]), fields[19], int(fields[11]) + int(fields[12])


def work_of(pid):
    """The crate that a process works on, and the kind of its work."""
    with open(f"/proc/{pid}/cmdline", encoding="utf-8", errors="replace") as it:
        words = it.read().split("\0")
    if "--crate-name" not in words:
        return "-", "other"
    crate = words[words.index("--crate-name") + 1]
    # (an edit is tried in a folder of its own)
    if "/rt-edit" in os.readlink(f"/proc/{pid}/cwd"):
        return crate, "edits"
    return crate, "tests" if "--test" in words else "proof"


def main():
    began = time.monotonic()
    gate = subprocess.Popen(["rt", "ci", *sys.argv[1:]], start_new_session=True)
    for number in (signal.SIGINT, signal.SIGTERM):
        signal.signal(number, lambda *_: os.killpg(gate.pid, signal.SIGTERM))
    works, ticks = {}, {}
    while gate.poll() is None:
        for pid in filter(str.isdigit, os.listdir("/proc")):
            try:
                session, started, used = stat_of(pid)
                if session == gate.pid:
                    key = (pid, started)
                    if key not in works or works[key][1] == "other":
                        works[key] = work_of(pid)
                    ticks[key] = used
            except (OSError, IndexError, ValueError):
                # (it ended meanwhile)
                pass
        time.sleep(0.25)
    table = collections.defaultdict(collections.Counter)
    for key, (crate, kind) in works.items():
        table[crate][kind] += ticks.get(key, 0) / TICKS / 60
    print(f"\n{'crate':18}" + "".join(f"{kind:>8}" for kind in KINDS) + f"{'all':>8}")
    for crate, row in sorted(table.items(), key=lambda it: -sum(it[1].values())):
        print(f"{crate:18}" + "".join(f"{row[kind]:8.1f}" for kind in KINDS) + f"{sum(row.values()):8.1f}")
    sums = [sum(row[kind] for row in table.values()) for kind in KINDS]
    print(f"{'all':18}" + "".join(f"{it:8.1f}" for it in sums) + f"{sum(sums):8.1f}")
    print(f"{(time.monotonic() - began) / 60:.1f} minutes on {len(os.sched_getaffinity(0))} processors")
    sys.exit(gate.returncode)


main()
