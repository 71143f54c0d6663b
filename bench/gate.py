#!/usr/bin/env python3
"""Runs the gate and measures its processor minutes, crate by crate: `make test`.

usage, at the top of the repository:
    bench/gate.py                           runs tests/all.py, whose own lines come through as it prints them
    bench/gate.py make prove                measures another command in the same way

Before the command's last line it prints a table, a line for each crate, in seconds of a processor:
    proof   the check of the crate from nothing
    tests   the check of the crate with its tests
    edits   the checks of its wrong bodies, by tests/edits.py
    build   LLVM and Rattle's own compiler on a proved program
    tried   how many wrong bodies it has
and then what belongs to no crate (rt itself, the runs of programs and tests, what ended between two looks at the processes), the
whole in processor minutes, and the wall time. Its status is the command's. The whole is exact, since the system counts it;
the parts are what each process had used when it was last looked at, half a second before its end or less.

What a check costs depends on the load: compare runs on one machine with the same other work.
"""

import os
import re
import resource
import subprocess
import sys
import threading
import time

PAUSE = 0.5
TICKS = os.sysconf("SC_CLK_TCK")
PARTS = ("proof", "tests", "edits", "build")


class Process:
    """A process that runs: its parent, when it was started, and the seconds that it and those of its children that ended have used."""

    def __init__(self, pid, words):
        self.pid, self.parent, self.started = pid, int(words[1]), words[19]
        self.seconds = sum(map(int, words[11:15])) / TICKS


def process_of(pid):
    try:
        with open(f"/proc/{pid}/stat", encoding="utf-8", errors="replace") as file:
            return Process(pid, file.read().rpartition(")")[2].split())
    except OSError:
        return None


def processes_below(top):
    """The processes that a process started, and those that these did, by their numbers."""
    found = {pid: it for pid in map(int, filter(str.isdigit, os.listdir("/proc"))) if (it := process_of(pid))}
    below, more = {}, {top}
    while more:
        below.update({pid: found[pid] for pid in more if pid in found})
        more = {pid for pid, it in found.items() if it.parent in more and pid not in below}
    return below


def task_of(pid):
    """What a process of rattle works on: a crate and a part of its gate."""
    try:
        with open(f"/proc/{pid}/cmdline", encoding="utf-8", errors="replace") as file:
            words = file.read().split("\0")
        folder = os.readlink(f"/proc/{pid}/cwd")
    except OSError:
        return None
    if "--crate-name" not in words or not words[0].endswith("/rattle"):
        return None
    crate = words[words.index("--crate-name") + 1]
    if "/edits-" in folder:
        return crate, "edits"
    if "--test" in words:
        return crate, "tests"
    return crate, "build" if "--crate-checked" in words else "proof"


def look(top, known, used):
    """Adds what the processes that run now have used, each to the uppermost process of rattle above it."""
    below = processes_below(top)
    for pid, it in below.items():
        if not known.get((pid, it.started)):
            known[pid, it.started] = task_of(pid)
    task = {pid: known[pid, it.started] for pid, it in below.items()}
    seconds = {}
    for it in below.values():
        owner = it
        while owner and (not task[owner.pid] or task.get(owner.parent)):
            owner = below.get(owner.parent)
        if owner:
            seconds[owner] = seconds.get(owner, 0.0) + it.seconds
    for owner, spent in seconds.items():
        key = owner.pid, owner.started, task[owner.pid]
        used[key] = max(used.get(key, 0.0), spent)


def edits_of(crate):
    with open("tests/gate.edits", encoding="utf-8") as file:
        return sum(line.startswith(f"{crate}/") for line in file)


def crates_in_order():
    with open("crates.txt", encoding="utf-8") as file:
        lines = [re.sub(r"#.*", "", line).strip() for line in file]
    return [line.split(":")[0].split()[0] for line in lines if line]


def print_table(used, whole, wall):
    sums = {}
    for (_, _, (crate, part)), seconds in used.items():
        sums[crate, part] = sums.get((crate, part), 0.0) + seconds
    print(f"{'crate':16}" + "".join(f"{part:>8}" for part in PARTS) + f"{'tried':>7}{'all':>8}")
    for crate in [*crates_in_order(), "whole"]:
        row = [sum(s for (c, p), s in sums.items() if p == part and crate in (c, "whole")) for part in PARTS]
        count = sum(map(edits_of, crates_in_order())) if crate == "whole" else edits_of(crate)
        if any(row):
            print(f"{crate:16}" + "".join(f"{seconds:8.0f}" for seconds in row) + f"{count:7}{sum(row):8.0f}")
    print(f"of no crate: {whole - sum(sums.values()):.0f} s")
    print(f"whole: {whole / 60:.1f} processor minutes; wall: {wall / 60:.1f} minutes")


def pass_on(lines, held):
    """Prints lines as they come, except the last one, which it holds."""
    for line in lines:
        if held:
            print(held.pop(), end="", flush=True)
        held.append(line)


def main(words):
    if words and words[0] in ("-h", "--help"):
        print(__doc__)
        return 0
    if not os.path.isfile("crates.txt"):
        print("bench/gate.py runs at the top of the repository", file=sys.stderr)
        return 2
    began = time.monotonic()
    command = subprocess.Popen(words or ["tests/all.py"], stdout=subprocess.PIPE, text=True, errors="replace")
    held, known, used = [], {}, {}
    reader = threading.Thread(target=pass_on, args=(command.stdout, held))
    reader.start()
    while command.poll() is None:
        look(command.pid, known, used)
        time.sleep(PAUSE)
    reader.join()
    spent = resource.getrusage(resource.RUSAGE_CHILDREN)
    print_table(used, spent.ru_utime + spent.ru_stime, time.monotonic() - began)
    print(*held, end="", flush=True)
    return command.returncode


if __name__ == "__main__":
    sys.exit(main(sys.argv[1:]))
