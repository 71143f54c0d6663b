#!/usr/bin/env python3
"""Prints where the instructions of a record go, by callgrind.

usage: bench/profile.py JOB [FUNCTION]        RPG2 names the program

Without FUNCTION it prints the instructions a record of each function itself, without those that it calls; with it, of each address in the
functions whose names have that text, next to the disassembly. A count is the difference between the runs of a job of bench/running.py over
few and more records, divided by theirs; so what is done once drops out.
"""

import os
import re
import subprocess
import sys
import tempfile

import running


def add_lines(report, sign, counts):
    """Adds or subtracts the costs in a file of callgrind, by function and address."""
    function, is_call = "", False
    for line in report:
        if line.startswith("fn="):
            function = line[3:].strip()
        elif line.startswith("calls="):
            is_call = True
        elif line.startswith("0x"):
            # The line after a call has what was spent in it, which its own function has too.
            if not is_call:
                place = (function, int(line.split()[0], 16))
                counts[place] = counts.get(place, 0) + sign * int(line.split()[-1])
            is_call = False


def counts_of(job, folder):
    """Instructions a record, by function and address."""
    counts = {}
    for inputs, sign in ((job.more, 1), (job.few, -1)):
        out = os.path.join(folder, "callgrind")
        words = running.words_for(job.programs["rpg2"], folder, inputs, running.new_print(folder))
        flags = ["--tool=callgrind", "--dump-instr=yes", "--compress-pos=no", "--compress-strings=no", f"--callgrind-out-file={out}"]
        subprocess.run(["valgrind", *flags, *words], capture_output=True, check=True)
        with open(out, encoding="utf-8") as report:
            add_lines(report, sign, counts)
    records = running.records_in(job.more) - running.records_in(job.few)
    return {place: count / records for place, count in counts.items() if count}


def tell_functions(counts):
    sums = {}
    for (function, _), count in counts.items():
        sums[function] = sums.get(function, 0) + count
    print(f"{sum(sums.values()):9.1f}  all")
    for function, count in sorted(sums.items(), key=lambda it: -it[1]):
        if count >= 1:
            print(f"{count:9.1f}  {function}")


def tell_addresses(counts, wanted):
    told = subprocess.run(["objdump", "-d", "--no-show-raw-insn", running.RPG2], capture_output=True, text=True, check=True)
    texts = {int(it[1], 16): it[2] for it in re.finditer(r"^\s*([0-9a-f]+):\t(.*)$", told.stdout, re.M)}
    for function, address in sorted(counts, key=lambda it: it[1]):
        if wanted in function and address in texts:
            print(f"{counts[function, address]:9.2f}  {address:x}  {texts[address]}")


def main(words):
    if not words or words[0] not in running.JOBS:
        sys.exit(__doc__)
    with tempfile.TemporaryDirectory() as folder:
        counts = counts_of(running.JOBS[words[0]](folder), folder)
    if len(words) > 1:
        tell_addresses(counts, words[1])
    else:
        tell_functions(counts)


if __name__ == "__main__":
    main(sys.argv[1:])
