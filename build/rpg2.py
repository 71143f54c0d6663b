#!/usr/bin/env python3
"""Builds crates/rpg2/out/rpg2 only from what is proved, for `make prove`.

usage, at the top of the repository: build/rpg2.py [--is-built]

rpg2 and the libraries below it are proved from nothing by the gate's own command, `rt ci`, in a room that has them and nothing else: no
wrong bodies, no tests, no other program. On the way it prints how many crates are proved and how long the rest is likely to take. If
nothing in them is newer than the program, it is left as it is. With --is-built nothing is built: it fails unless the program is up to date.
"""

import os
import re
import shutil
import subprocess
import sys
import tempfile
import time
from pathlib import Path

PROGRAM = Path("crates/rpg2/out/rpg2")
PARTS = ("src", "specs", "proofs", "args", "data", "stdout")
# Processor seconds of a proof, as docs/develop/GATE.md has them: for a crate whatever it holds, and for a line of its .rt files.
EACH_CRATE, EACH_LINE = 20, 0.13
NOT_BUILT = "rpg2: no proved program is up to date: `make prove` makes one, in some 40 minutes on 4 processors, and the package has one (README.md, \"Get it\")"
DONE = re.compile(r"rt: (\w+) (?:proved|is kept)\b")


def crates_below(name):
    """The crate and all libraries of the repository below it, with their lines of crates.txt."""
    with open("crates.txt", encoding="utf-8") as file:
        rows = {row.partition(":")[0].split()[0]: row for line in file if (row := line.partition("#")[0].strip())}
    found, left = {}, [name]
    while left:
        it = left.pop()
        if it not in found:
            found[it] = rows[it]
            left += [other for other in rows[it].partition(":")[2].split() if other in rows]
    return found


def is_up_to_date(program):
    """Whether there is the program, and no file that it is made of is newer."""
    if not program.exists():
        return False
    folders = [Path("crates", it) for it in crates_below("rpg2")]
    files = [Path("crates.txt"), Path("HANDLES"), *(file for it in folders for file in it.rglob("*") if it / "out" not in file.parents and file.is_file())]
    made = program.stat().st_mtime
    return all(file.stat().st_mtime <= made for file in files)


def room_of(crates, room):
    """Copies the crates to the room, without what the program doesn't need."""
    shutil.copy("HANDLES", room)
    (room / "crates.txt").write_text("".join(f"{row}\n" for row in crates.values()), encoding="utf-8")
    for name in crates:
        for part in PARTS:
            here = Path("crates", name, part)
            if here.is_dir():
                shutil.copytree(here, room / "crates" / name / part)
            elif here.exists():
                (room / "crates" / name).mkdir(parents=True, exist_ok=True)
                shutil.copy(here, room / "crates" / name / part)


def seconds_of(name):
    lines = sum(file.read_bytes().count(b"\n") for file in Path("crates", name, "src").rglob("*.rt"))
    return EACH_CRATE + EACH_LINE * lines


def minutes(seconds):
    return f"{max(1, round(seconds / 60))} minutes"


class Progress:
    """How far the proofs are. Its guess of the time left goes by the crates' sizes at first, and by the pace so far later on."""

    def __init__(self, crates):
        self.left = {it: seconds_of(it) for it in crates}
        self.whole, self.count, self.begun = sum(self.left.values()), len(crates), time.monotonic()

    def tell(self):
        done, spent = self.whole - sum(self.left.values()), time.monotonic() - self.begun
        pace = spent / done if done > 0.1 * self.whole else 1 / len(os.sched_getaffinity(0))
        print(f"{self.count - len(self.left)} of {self.count} crates proved; about {minutes(pace * (self.whole - done))} left", flush=True)

    def note(self, line):
        it = DONE.match(line)
        if it and self.left.pop(it[1], None):
            self.tell()


def prove(room, progress):
    """Runs `rt ci` in the room. Its lines are kept for a failure."""
    printed = []
    with subprocess.Popen(["rt", "ci"], cwd=room, stdout=subprocess.PIPE, stderr=subprocess.STDOUT, text=True, errors="replace") as gate:
        for line in gate.stdout:
            printed.append(line)
            progress.note(line)
    if gate.returncode:
        sys.stdout.writelines(printed)
    return gate.returncode


def build():
    """Proves and builds the program. It is as old as the files it is made of, even if they change while they are proved."""
    crates, begun = crates_below("rpg2"), time.time()
    with tempfile.TemporaryDirectory(prefix="melguda-build-") as name:
        room, progress = Path(name), Progress(crates)
        room_of(crates, room)
        progress.tell()
        status = prove(room, progress)
        if not status:
            PROGRAM.parent.mkdir(parents=True, exist_ok=True)
            shutil.copy(room / PROGRAM, PROGRAM)
            os.utime(PROGRAM, (begun, begun))
    return status


def main(words):
    if is_up_to_date(PROGRAM):
        return 0
    return NOT_BUILT if words == ["--is-built"] else build()


if __name__ == "__main__":
    sys.exit(main(sys.argv[1:]))
