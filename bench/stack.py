#!/usr/bin/env python3
"""Shows that the stack doesn't grow with the cards: each command, over 2,000 cards of each kind of bench/sources.py, within 192 KB of stack.

usage: bench/stack.py [KILOBYTES]        192 where it isn't given; RPG2 names the program, which is to be optimised as a proved one is

A command runs twice, with the usual stack and with so much of it, and its exit status, its output and its diagnostics have to be the same.
It prints a line for each that differ, and the count of commands; its status is 1 where one differs.
"""

import os
import resource
import subprocess
import sys
import tempfile
from pathlib import Path

TOP = Path(__file__).resolve().parent.parent
RPG2 = os.environ.get("RPG2", str(TOP / "crates/rpg2/out/rpg2"))
CARDS = "2000"
KINDS = (
    "names literals both constants plain labels groups group calls entries levels data decks no-files no-data no-labels no-ends "
    "SHEET-H SHEET-F SHEET-E SHEET-I SHEET-C SHEET-O SHEET-D"
).split()
OF_SOURCES = (["compile", "SRC", "OBJ"], ["check", "SRC"], ["list", "SRC"], ["cards", "SRC", "--short"])
OF_OBJECTS = (["verify", "OBJ"], ["show", "OBJ", "--rows"], ["show", "OBJ", "--source", "SRC"], ["run", "OBJ", "/dev/null", "PRINT", "--date", "112676"], ["go", "SRC", "/dev/null", "PRINT", "--date", "112676"])


def answer(words, folder, limit=None):
    """What a command printed, and its exit status."""
    lower = (lambda: resource.setrlimit(resource.RLIMIT_STACK, (limit, limit))) if limit else None
    ran = subprocess.run([RPG2, *words], cwd=folder, capture_output=True, stdin=subprocess.DEVNULL, preexec_fn=lower, check=False)
    return ran.returncode, ran.stdout, ran.stderr


def commands_over(kind, folder):
    """Writes the source of a kind, and gives the commands that it allows."""
    with open(f"{folder}/SRC", "w", encoding="ascii") as out:
        subprocess.run([TOP / "bench/sources.py", kind, CARDS], stdout=out, check=True)
    Path(folder, "OBJ").unlink(missing_ok=True)
    is_compiled = answer(OF_SOURCES[0], folder)[0] == 0
    return OF_SOURCES + OF_OBJECTS if is_compiled else OF_SOURCES


def main(words):
    limit = int(words[0] if words else "192") * 1024
    count = differ = 0
    with tempfile.TemporaryDirectory() as folder:
        for kind in KINDS:
            for command in commands_over(kind, folder):
                count += 1
                usual, lower = answer(command, folder), answer(command, folder, limit)
                if usual != lower:
                    differ += 1
                    print(f"{kind}: {' '.join(command)}: status {usual[0]} with the usual stack, {lower[0]} with {limit // 1024} KB")
    print(f"{count} commands within {limit // 1024} KB of stack, {differ} of them differ")
    return 1 if differ or not count else 0


if __name__ == "__main__":
    sys.exit(main(sys.argv[1:]))
