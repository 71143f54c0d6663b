#!/usr/bin/env python3
"""Compares what `rpg2 check` reports for faulty sources with a count of its own.

usage: bench/faults.py [SOURCES [SEED]]        1,000 sources from seed 1 where they aren't given; RPG2 names the program
       bench/faults.py --write FOLDER [SOURCES [SEED]]    writes the sources, and the expected reports, and runs nothing

It makes random sources and changes some columns and cards of each. The rules of docs/MESSAGES.md are then applied to the cards one by
one, each as the page has it, and the resulting pairs of a card and a code are compared with those reported on standard error, in
their order, and with the number of faults. Nothing is shared with rpg2, neither its code nor its tables. Of F6 only the number of
entries is tested, since no source is large enough for another limit. In one source of eight some cards can't be read: then only
these are compared, and not which faults of the others are reported with them. The exit status is 1 if some source is reported otherwise.
"""

import os
import random
import re
import subprocess
import sys
import tempfile
from collections import Counter

from fault_rules import wanted_of
from fault_sources import made

TOP = os.path.dirname(os.path.dirname(os.path.abspath(__file__)))
RPG2 = os.environ.get("RPG2", os.path.join(TOP, "crates/rpg2/out/rpg2"))
MOST_TOLD = 20


# ---- what is reported


def told_of(text):
    """The pairs that are reported one by one, and how many faults there are in all."""
    pairs = [(int(card or 0), code) for card, code in re.findall(r"^[^:\n]+:(\d+):\d+: error: .* \[([SF]\d+)\]$", text, re.M)]
    last = re.search(r": note: (?:(\d+) faults?|(\d+) cards? can't be read|(this card) can't be read)[^\n]*\n\Z", text)
    count = 0 if last is None else 1 if last[3] else int(last[1] or last[2])
    return pairs, count


def line_of(wanted):
    return f"card {wanted[0][0]}: {wanted[0][1]}" if wanted else None


def compared(room, source, wanted):
    path = os.path.join(room, "source.rpg")
    with open(path, "w", newline="") as out:
        out.write("\n".join(source) + "\n")
    ran = subprocess.run([RPG2, "check", path], capture_output=True, text=True)
    pairs, count = told_of(ran.stderr)
    line = ran.stdout.strip()
    # a fault of no card is reported at line 1
    if line == "card 0: F7" and pairs:
        pairs[0] = (0, "F7")
    if wanted and wanted[0][1][0] == "S":
        pairs = [it for it in pairs if it[1][0] == "S"]
        wanted_pairs = wanted[: len(pairs)]
    else:
        wanted_pairs = wanted[:MOST_TOLD]
    same = pairs == wanted_pairs and count == len(wanted) and (line == line_of(wanted) if wanted else ran.returncode == 0)
    if not same:
        print("\n".join(f"{at + 1:4} {it}" for at, it in enumerate(source)))
        print(f"told   {pairs} of {count}: {line}\nwanted {wanted[:MOST_TOLD]} of {len(wanted)}")
    return same


def main(words):
    write = words.pop(1) if words[:1] == ["--write"] else None
    words = words[1:] if write else words
    count, seed = int(words[0]) if words else 1000, int(words[1]) if len(words) > 1 else 1
    by, codes, wrong, faulty = random.Random(seed), Counter(), 0, 0
    with tempfile.TemporaryDirectory() as room:
        for number in range(count):
            source = made(by)
            wanted = wanted_of(source)
            codes.update(code for _, code in wanted)
            faulty += bool(wanted)
            if write:
                with open(os.path.join(write, f"{number:04}"), "w", newline="") as out:
                    out.write("\n".join(source) + "\n")
                with open(os.path.join(write, f"{number:04}.wanted"), "w") as out:
                    out.write("".join(f"{card} {code}\n" for card, code in wanted))
            else:
                wrong += not compared(room, source, wanted)
    print(f"{count} sources, {faulty} with faults, {sum(codes.values())} faults")
    print(", ".join(f"{code} {codes[code]}" for code in sorted(codes, key=lambda it: (it[0] != "S", int(it[1:])))))
    print(f"{wrong} differ" if not write else f"written to {write}")
    return 1 if wrong else 0


if __name__ == "__main__":
    sys.exit(main(sys.argv[1:]))
