#!/usr/bin/env python3
"""Compares what old decks mean with what they do once `rpg2 fit` has rewritten them.

usage: bench/fit.py [COUNT [SEED]]        200 decks from seed 1 where they aren't given; RPG2 names the program
       bench/fit.py --write FOLDER SEED   writes a deck and all that its job needs, and runs nothing

It makes old decks by chance (old_deck_sources.py). An evaluator that shares nothing with rpg2 runs each as it stands (old_decks.py,
old_deck_jobs.py). `rpg2 fit` rewrites it, and `rpg2 go` runs the new deck: its print, its disk files and its ending must be those of
the evaluator. Where the old job ends at a record out of order, the new one must end by halt 6 and print the same lines before it. Decks
that fit rejects are counted by the rule that rejects them. Fit must also leave the new deck as it is, byte for byte, and its sentences
must name cards of the old deck. For each deck that differs it prints the seed, and how. The exit status is 1 if some differ.
"""

import os
import re
import subprocess
import sys
import tempfile
from collections import Counter
from dataclasses import dataclass
from pathlib import Path

import old_deck_sources
from old_deck_jobs import OUT_OF_ORDER, Job
from old_decks import OldDeck

TOP = Path(__file__).resolve().parent.parent
RPG2 = os.environ.get("RPG2", str(TOP / "crates/rpg2/out/rpg2"))
DATE = "112376"
ALLOWANCE = "60000"
SECONDS = 60


class Differs(Exception):
    """How a deck differs."""


@dataclass(frozen=True)
class Answer:
    """What a command of rpg2 answers."""

    line: str
    status: int
    errors: str


@dataclass(frozen=True)
class Result:
    """The end of a comparison: in a word, what fit answers, and how the deck differs."""

    kind: str  # same, halted, out of order, rejected or differs
    answer: str
    how: str = ""


class Room:
    """A folder with the files of a job, in which a program runs."""

    def __init__(self, program, folder, job):
        self.program, self.folder, self.job = program, Path(folder), job
        job.write(self.folder)

    def answer(self, *words):
        given = {"cwd": self.folder, "stdin": subprocess.DEVNULL, "encoding": "latin-1", "timeout": SECONDS}
        try:
            ran = subprocess.run([self.program, *words], capture_output=True, check=False, **given)
        except subprocess.TimeoutExpired:
            raise Differs(f"{words[0]} takes more than {SECONDS} seconds") from None
        return Answer(ran.stdout.strip(), ran.returncode, ran.stderr)

    def text(self, name):
        """What a file has, or the part of it that a job left."""
        part = self.folder / f"{name}.part"
        return (part if part.exists() else self.folder / name).read_bytes().decode("latin-1")

    def fit(self, source, new):
        tables = ["--table", f"{old_deck_sources.TABLE_FILE}=table"] if self.job.table is not None else []
        printer = ["--printer", self.job.printer] if self.job.printer else []
        return self.answer("fit", source, new, *tables, *printer, "--switches", self.job.switches)

    def converted(self, *words):
        answer = self.answer("records", *words)
        require(answer.status == 0, f"records: {answer.line}\n{answer.errors}")

    def go(self, told):
        """Runs the new deck, over the files that the sentences ask for."""
        records, second = "records", "second"
        if "[A25]" in told:
            self.converted("--merge", "deck", "merged", "IN3=third", "IN2=second")
            second = "merged"
        if ahead := re.search(r": rpg2 records --ahead (\S+) puts", told):
            self.converted("records", "ahead", "--ahead", ahead[1], "--length", "80")
            records = "ahead"
        secondary = ["--secondary", second] if len(self.job.records) > 1 else []
        return self.answer("go", "new", records, "print", "--date", DATE, "--disk", "disk", *secondary, "--allowance", ALLOWANCE)


# ---- what fit does to the cards


def require(holds, why):
    if not holds:
        raise Differs(why)


def check_sentences(room, answer):
    """Each sentence names a card of the old deck, and there are as many as changes, or one for a deck that is rejected."""
    lines = room.text("deck").split("\n")
    named = [(int(card), code) for card, code in re.findall(r"^deck:(\d+):\d+: (?:note|error): .*?(?: \[(A\d+)\])?$", answer.errors, re.M)]
    changes = [it for it in named if it[1]]
    is_good = all(1 <= card <= len(lines) and lines[card - 1].strip() for card, _ in named)
    require(is_good, f"a sentence names no card of the deck\n{answer.errors}")
    wanted = f"changes {len(changes)}" if answer.status == 0 else "".join(f"card {card}: {code}" for card, code in changes)
    require(answer.line == wanted, f"{answer.line}, and other sentences\n{answer.errors}")


def check_rewritten(room, answer):
    """Without changes the bytes are the old ones, and the new deck needs no change."""
    require(answer.line != "changes 0" or room.text("new") == room.text("deck"), "changes 0, and other bytes")
    again = room.fit("new", "newer")
    require(again.line == "changes 0", f"once more: {again.line}\n{again.errors}")
    require(room.text("newer") == room.text("new"), "once more: other bytes")


# ---- what both decks do


def ending_of(line):
    return line.partition(",")[0].replace("end of job", "end")


def disk_file(text, told, file):
    """The records of a file of the old deck in the one disk file of the new one, and whether it is a new file for those that were read."""
    new = dict(re.findall(r": note: (\S+) is read, and (\S+) gets.* \[A27\]$", told, re.M))
    letters = dict(re.findall(r": note: (\S+): the disk records that begin with (.).* \[A21\]$", told, re.M))
    letter = letters.get(new.get(file.name, file.name))
    if letter is None:
        return text, file.name in new
    mine = [it[1 : file.length + 1] for it in text.split("\n") if it[:1] == letter]
    return "".join(it + "\n" for it in mine), file.name in new


def check_disk(text, told, file, wanted):
    """A disk file. A new file with the records of an old one ends where the job halts."""
    records, is_new = disk_file(text, told, file)
    old = wanted.disks.get(file.name, "")
    if is_new and wanted.ending != "end":
        left = wanted.chosen[file.name] - records.count("\n")
        require(old.startswith(records) and left in (0, 1), f"the file {file.name} up to the halt")
    else:
        require(records == old, f"the disk file {file.name}")


def check_run(room, deck, wanted, came, told):
    """The ending, the print and the disk files; returns the kind of the run."""
    printed, ending = room.text("print"), ending_of(came.line)
    if wanted.ending == OUT_OF_ORDER:
        is_same = ending == "halt 6" and printed.rstrip("\n").startswith(wanted.print.rstrip("\n"))
        require(is_same, f"{came.line}, and a record is out of order")
        return "out of order"
    require(ending == wanted.ending, f"{came.line}, and not {wanted.ending}\n{came.errors}")
    require(printed == wanted.print, "the print")
    text = room.text("disk")
    for file in deck.disk_files():
        check_disk(text, told, file, wanted)
    return "same" if ending == "end" else "halted"


def course_of(job):
    """The old deck of a job, and what it does."""
    deck = OldDeck(job.deck, {old_deck_sources.TABLE_FILE: job.table}, job.printer)
    return deck, Job(deck, job.switches, DATE).run(job.records)


def compared_in(room):
    """Raises Differs where the deck differs."""
    answer = room.fit("deck", "new")
    is_rejected = answer.status == 3 and re.fullmatch(r"card \d+: A\d+", answer.line)
    require(is_rejected or answer.status == 0, f"{answer.line}\n{answer.errors}")
    check_sentences(room, answer)
    if is_rejected:
        return Result("rejected", answer.line)
    check_rewritten(room, answer)
    deck, wanted = course_of(room.job)
    return Result(check_run(room, deck, wanted, room.go(answer.errors), answer.errors), answer.line)


def compared(program, seed):
    """A deck by chance, compared in a folder of its own."""
    with tempfile.TemporaryDirectory() as folder:
        try:
            return compared_in(Room(program, folder, old_deck_sources.made(seed)))
        except Differs as how:
            return Result("differs", "", str(how))


# ---- the command


def tell(counts, rules):
    print(", ".join(f"{kind} {counts[kind]}" for kind in ("same", "halted", "out of order", "rejected")))
    print("rejected by " + ", ".join(f"{rule} {rules[rule]}" for rule in sorted(rules, key=lambda it: int(it[1:]))))
    print(f"{sum(counts.values())} decks, {counts['differs']} differ")


def main(words):
    if words[:1] == ["--write"]:
        old_deck_sources.made(int(words[2])).write(Path(words[1]))
        return 0
    count, seed = int(words[0]) if words else 200, int(words[1]) if len(words) > 1 else 1
    counts, rules = Counter(), Counter()
    for number in range(seed, seed + count):
        result = compared(RPG2, number)
        counts[result.kind] += 1
        if result.kind == "rejected":
            rules[result.answer.split()[-1]] += 1
        if result.kind == "differs":
            print(f"deck {number} differs: {result.how}", flush=True)
    tell(counts, rules)
    return 1 if counts["differs"] else 0


if __name__ == "__main__":
    sys.exit(main(sys.argv[1:]))
