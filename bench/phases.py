#!/usr/bin/env python3
"""Prints what commands take for a source of 2,000 cards, and for few records, by phase: millions of instructions, by callgrind.

usage: bench/phases.py [CARDS]        RPG2 names the program

A phase is a family of crates. Its instructions are those of its crates' functions, without what they call in other families; what LLVM inlined
counts where it was inlined. The sources are those of bench/sources.py: new names, used again (`names`), and for `check` branches whose labels
are missing (`no-labels`). `start` is `rpg2 --version`, which every command takes too, and `run` a job of ten records.
"""

import os
import re
import subprocess
import sys
import tempfile

import running

# The phase of a function, by the first prefix of its name that fits.
PHASES = (
    ("command line", ("clap", "rpg_cli_words", "anstyle")),
    ("sheets and cards", ("rpg_sheet", "rpg_cards", "rpg_card_index", "rpg_symbols", "indexmap")),
    ("faults", ("rpg_faults", "rpg_causes")),
    ("compiling", ("rpg_compile",)),
    ("object program", ("rpg_object", "rpg_verify")),
    ("running", ("rpg_engine", "rpg_cycle", "rpg_machine", "rpg_memory", "rpg_store", "rpg_decimal", "rpg_edit", "rpg_paper", "rpg_program")),
    ("records and fit", ("rpg_record", "rpg_fit")),
    ("messages, listing", ("rpg_cli", "rpg2", "rpg_meaning", "rpg_refusal")),
    ("texts and files", ("rpg_text", "rpg_files")),
)
OTHERS = "memory and library"


def phase_of(function):
    for phase, prefixes in PHASES:
        if function.startswith(prefixes):
            return phase
    return OTHERS


def counts_of(words, folder):
    """Instructions by phase."""
    out = os.path.join(folder, "callgrind")
    flags = ["--tool=callgrind", "--compress-strings=no", f"--callgrind-out-file={out}"]
    subprocess.run(["valgrind", *flags, *words], capture_output=True, check=False)
    counts, phase, is_call = {}, OTHERS, False
    with open(out, encoding="utf-8") as report:
        for line in report:
            if line.startswith("fn="):
                phase = phase_of(line[3:].strip())
            elif line.startswith("calls="):
                is_call = True
            elif re.match(r"[+*\-\d]", line):
                if not is_call:
                    counts[phase] = counts.get(phase, 0) + int(line.split()[-1])
                is_call = False
    return counts


def write(folder, name, text):
    path = os.path.join(folder, name)
    with open(path, "w", encoding="ascii") as out:
        out.write(text)
    return path


def source(folder, kind, cards):
    made = subprocess.run([running.path_of("bench/sources.py"), kind, str(cards)], stdout=subprocess.PIPE, check=True, text=True)
    return write(folder, kind, made.stdout)


def commands(folder, cards):
    """The words of each command."""
    names, faulty = source(folder, "names", cards), source(folder, "no-labels", cards)
    records = write(folder, "records", f"{'0' * 80}\n" * 10)
    amounts = write(folder, "amounts", "".join(f"{i:03}\n" for i in range(10)))
    new, total = os.path.join(folder, "new"), running.path_of("examples/total/total.obj")
    yield "start", ["--version"]
    yield "run, 10 records", ["run", total, amounts, new, "--date", "010576"]
    yield "compile", ["compile", names, f"{new}.obj"]
    yield "go, 10 records", ["go", names, records, f"{new}.print", "--date", "010576"]
    yield "list", ["list", names]
    yield "check, 20 faults", ["check", faulty]
    yield "check --faults 65535", ["check", faulty, "--faults", "65535"]
    yield "fit", ["fit", names, f"{new}.rpg"]
    yield "records, 10 records", ["records", "--by", names, "--lines", "--ascii", records, f"{new}.lines"]


def main(words):
    phases = [phase for phase, _ in PHASES] + [OTHERS]
    print(f"| Command | All | {' | '.join(phases)} |")
    print("|---" * (len(phases) + 2) + "|")
    with tempfile.TemporaryDirectory() as folder:
        for name, given in commands(folder, int(words[0]) if words else 2_000):
            counts = counts_of([running.RPG2, *given], folder)
            row = [sum(counts.values()), *(counts.get(phase, 0) for phase in phases)]
            print(f"| {name} | {' | '.join(f'{count / 1e6:.2f}' for count in row)} |", flush=True)


if __name__ == "__main__":
    main(sys.argv[1:])
