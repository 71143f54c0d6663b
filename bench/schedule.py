#!/usr/bin/env python3
"""Prints the longest chain of proofs, and how long the proofs take on 2, 4 and 8 processors at the pace of docs/develop/GATE.md's table.

usage, at the top of the repository: bench/schedule.py [NAME=SECONDS ..]        another figure for a crate

A crate that isn't in the table takes no time: another one includes it.
"""

import functools
import re
import sys

import gate

CELL = re.compile(r"((?:rpg\w+, )*rpg\w+) (\d+)")


def table():
    """The seconds of each crate in the table. One figure for several crates is for each of them."""
    found = {}
    with open("docs/develop/GATE.md", encoding="utf-8") as page:
        cells = [cell.strip() for line in page if line.startswith("|") for cell in line.split("|")]
    for it in filter(None, map(CELL.fullmatch, cells)):
        found.update(dict.fromkeys(it[1].split(", "), int(it[2])))
    return found


def crates_below():
    """The crates of the repository that each one names."""
    with open("crates.txt", encoding="utf-8") as file:
        rows = [row.partition("#")[0].partition(":") for row in file]
    names = gate.crates_in_order()
    return {row[0].split()[0]: [it for it in row[2].split() if it in names] for row in rows if row[0].strip()}


class Schedule:
    def __init__(self, seconds, below):
        self.seconds = {it: seconds.get(it, 0) for it in below}
        self.below = below
        self.above = {it: [other for other in below if it in below[other]] for it in below}

    @functools.cache
    def chain(self, crate):
        """The longest chain that ends with a crate: its seconds and its crates."""
        seconds, crates = max((self.chain(it) for it in self.below[crate]), default=(0, []))
        return seconds + self.seconds[crate], [*crates, crate]

    @functools.cache
    def left(self, crate):
        """The seconds of the longest chain that begins with a crate."""
        return self.seconds[crate] + max(map(self.left, self.above[crate]), default=0)

    def wall(self, processors):
        """The seconds on so many processors, if of the crates that can be proved the one with the longest chain is taken first."""
        now, done, running, left = 0, set(), [], sorted(self.below, key=self.left, reverse=True)
        while left or running:
            ready = [it for it in left if done.issuperset(self.below[it])][: processors - len(running)]
            running = sorted([*running, *((now + self.seconds[it], it) for it in ready)])
            left = [it for it in left if it not in ready]
            now, crate = running.pop(0)
            done.add(crate)
        return now


def main(words):
    given = (it.partition("=") for it in words)
    schedule = Schedule(table() | {name: int(seconds) for name, _, seconds in given}, crates_below())
    seconds, crates = max(map(schedule.chain, schedule.below))
    whole = sum(schedule.seconds.values())
    print(f"longest chain: {seconds} s in {len(crates)} crates: {' '.join(f'{it} {schedule.seconds[it]}' for it in crates)}")
    for processors in (2, 4, 8):
        print(f"{processors} processors: {schedule.wall(processors) / 60:.1f} minutes; all work divided: {whole / processors / 60:.1f}")


if __name__ == "__main__":
    main(sys.argv[1:])
