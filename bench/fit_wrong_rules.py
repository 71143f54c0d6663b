#!/usr/bin/env python3
"""Tries wrong rules of `rpg2 fit`: a case of tests/fit or an old deck by chance must see each of them.

usage: bench/fit_wrong_rules.py [--decks COUNT] [--keep FOLDER] [WORD..]        only the wrong rules with one of these words

bench/fit_wrong_rules.txt has the wrong rules, each a text of a file of the rules and what takes its place. One program has all of them, each
beside the right text under a test of its number; the environment variable WRONG_RULE chooses one while the program runs. So all are
compiled at once, unproved, as build/unproved.py does, in one to two minutes. --keep FOLDER leaves the program and its parts there: only
parts that changed are compiled again, and nothing if none did. With no wrong rule the program must pass all cases.

A case sees a wrong rule if it fails with it; the rule's own cases are tried first. A deck by chance, made with the feature of the rule
alone, sees it if what rpg2 makes of the new deck isn't what the old deck means (fit.py). 20 decks are tried where COUNT isn't given.

For each wrong rule it prints what sees it. The last line is 'N seen, M not', and the exit status is 1 if some aren't.
"""

import argparse
import os
import re
import sys
import tempfile
import time
from dataclasses import dataclass
from pathlib import Path

TOP = Path(__file__).resolve().parent.parent
sys.path += [str(TOP / "build"), str(TOP / "tests")]

import fit
import fits
import module_text
import old_deck_sources
import rpg2
import unproved
from program import Program

RULES = TOP / "bench/fit_wrong_rules.txt"
CASES = sorted((TOP / "tests/fit").glob("*.deck"))

# The test of a wrong rule's number: a function of the lowest crate of the rules. In the compiled program it asks the environment.
TEST = "/// Whether a wrong rule is chosen.\npub fn is_wrong(number: u64) -> bool {\n    number == 0\n}\n"
TEST_FILE = "rpg_fit_deck/src/lib.rt"
ASKED = re.compile(rb'(?s)(\ndefine [^\n]*@"?rpg_fit_deck::is_wrong"?\(i64 [^\n%]*%(\w+)\)[^\n]*\{\n).*?\n\}\n')
ASKS = rb"""\1entry:
  %word = call ptr @getenv(ptr @wrong_rule)
  %is_none = icmp eq ptr %word, null
  br i1 %is_none, label %none, label %some
none:
  ret i1 false
some:
  %chosen = call i64 @atol(ptr %word)
  %is_same = icmp eq i64 %chosen, %\2
  ret i1 %is_same
}
"""
GLOBAL = b'@wrong_rule = private constant [11 x i8] c"WRONG_RULE\\00"\n'
DECLARATIONS = b"declare ptr @getenv(ptr)\ndeclare i64 @atol(ptr)\n"


@dataclass(frozen=True)
class WrongRule:
    number: int
    rule: str  # A6
    feature: str  # the feature of its decks by chance
    text: str
    file: str
    old: str
    new: str

    def both(self):
        """The right text and the wrong one, under the test of the number."""
        test = f"rpg_fit_deck::is_wrong({self.number})"
        if "WRONG" in self.new:
            return self.new.replace("WRONG", test)
        both = f"if {test} {{ {self.new} }} else {{ {self.old} }}"
        return both if self.old.endswith(";") else f"({both})"


def wrong_rules(text):
    blocks = [[line for line in block.split("\n") if line and not line.startswith("#")] for block in re.split(r"\n\s*\n", text)]
    for number, (head, file, old, new) in enumerate((block for block in blocks if block), 1):
        yield WrongRule(number, *re.match(r"(A\d+) (\w+): (.*)", head).groups(), file, old.removeprefix("- "), new.removeprefix("+ "))


# ---- the program


def with_wrong_rules(text, rules):
    """The text of a file with its wrong rules beside the right ones."""
    for wrong in rules:
        if text.count(wrong.old) != 1:
            sys.exit(f"{wrong.rule} {wrong.text}: its text must stand once in {wrong.file}: {wrong.old}")
    places = {wrong.old: wrong.both() for wrong in rules}
    return re.sub("|".join(map(re.escape, places)), lambda it: places[it[0]], text)


def edit(crates, rules):
    for name in {it.file for it in rules}:
        file = crates / name
        file.write_text(with_wrong_rules(file.read_text(encoding="utf-8"), [it for it in rules if it.file == name]), encoding="utf-8")
    with open(crates / TEST_FILE, "a", encoding="utf-8") as file:
        file.write(f"\n{TEST}")


def asking(text):
    """The text of the module in which the test of a number asks the environment."""
    text, count = ASKED.subn(ASKS, text)
    assert count == 1
    return text.replace(b"\ndefine ", b"\n" + GLOBAL + b"define ", 1) + DECLARATIONS


def build(folder, rules):
    """Compiles rpg2 with all wrong rules, unless that is up to date, and returns the program, as old as the files it is made of."""
    kit, program, kept, begun = unproved.Kit(), folder / "rpg2", folder / "parts", time.time()
    if rpg2.is_up_to_date(program) and program.stat().st_mtime >= RULES.stat().st_mtime:
        return program
    kept.mkdir(parents=True, exist_ok=True)
    with tempfile.TemporaryDirectory(prefix="wrong-rules-") as name:
        room = unproved.room_of(Path(name), False)
        edit(room / "crates", rules)
        text = asking(kit.text_of(kit.lowered(room, Path(name))))
        objects, _ = unproved.compiled(kit, module_text.Module(text).parts(False, {}), kept, 0)
        kit.link(objects, program)
    os.utime(program, (begun, begun))
    return program


# ---- what sees a wrong rule


def failing(program, cases):
    """The first case that fails."""
    return next((path.stem for path in cases if any(not it.has_passed for it in fits.show(Program(program, "rpg2"), path))), None)


def differing(program, feature, count):
    """The first deck by chance that differs, and how."""
    for seed in range(1, count + 1):
        with tempfile.TemporaryDirectory() as folder:
            try:
                fit.compared_in(fit.Room(program, folder, old_deck_sources.made(seed, {feature})))
            except fit.Differs as how:
                return f"old deck {seed} with {feature}: {str(how).splitlines()[0]}"
    return None


def seen_by(program, wrong, decks):
    """The case or the deck that sees a wrong rule."""
    own = [path for path in CASES if path.stem.startswith(f"{wrong.rule}-")]
    if case := failing(program, own):
        return f"case {case}"
    if deck := differing(program, wrong.feature, decks):
        return deck
    case = failing(program, [path for path in CASES if path not in own])
    return case and f"case {case}"


def main():
    words = argparse.ArgumentParser(usage=__doc__)
    words.add_argument("--decks", type=int, default=20)
    words.add_argument("--keep", type=Path)
    words.add_argument("words", nargs="*")
    given = words.parse_args()
    os.chdir(TOP)
    every = list(wrong_rules(RULES.read_text(encoding="utf-8")))
    chosen = [it for it in every if not given.words or any(word in f"{it.rule} {it.feature}: {it.text}" for word in given.words)]
    with tempfile.TemporaryDirectory() as name:
        program = build(given.keep.absolute() if given.keep else Path(name), every)
        os.environ.pop("WRONG_RULE", None)
        if case := failing(program, CASES):
            sys.exit(f"case {case} fails with the right rules")
        seen = 0
        for wrong in chosen:
            os.environ["WRONG_RULE"] = str(wrong.number)
            by = seen_by(program, wrong, given.decks)
            seen += by is not None
            print(f"{wrong.rule} {wrong.text}: {f'seen by {by}' if by else 'NOT SEEN'}", flush=True)
    print(f"{seen} seen, {len(chosen) - seen} not")
    sys.exit(seen != len(chosen))


if __name__ == "__main__":
    main()
