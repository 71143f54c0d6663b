#!/usr/bin/env python3
"""Measures what `rpg2 verify` takes for the largest programs.

usage: bench/verify.py [ROUNDS]        20 rounds where it isn't given; RPG2 names the program

It makes objects of 8,192 instructions, of 1,000 lines of 200 fields (as they are or by a code; and each by an edit word, which costs
most), and of 200 record types of 100 control fields and 500 input fields. From what each takes it subtracts what an empty file takes.
The wall time is the least of some rounds. Instructions are counted by callgrind, where valgrind is there: those of the function that
decodes the object, and all others. Each program but that of the words is to take less than 30 ms, or the status is 1.
"""

import os
import re
import shutil
import struct
import subprocess
import sys
import tempfile
import time

TOP = os.path.dirname(os.path.dirname(os.path.abspath(__file__)))
RPG2 = os.environ.get("RPG2", os.path.join(TOP, "crates/rpg2/out/rpg2"))
LIMIT = 0.030
DECODES = "rpg_engine::object::decode_object"
BY = 10_000  # an index that is a field: 10,000 and its number


def numbers(*values):
    return struct.pack(f">{len(values)}H", *values)


def header(record, printer, fields, types=0, lines=0, detail=0):
    return b"RPGOBJ" + numbers(1, 1000, record, printer, 0, 0, fields, types, lines, detail, 0, 0, 0)


def field(kind, of, length, decimals=0, sequence=0, entries=1):
    return bytes([kind, of]) + numbers(length) + bytes([decimals, sequence]) + numbers(entries)


def instruction(operation, factor1=(0, 0), factor2=(0, 0), result=(0, 0), indicators=(0, 0, 0), target=0):
    return bytes([operation, 0]) + numbers(*factor1, *factor2, *result) + bytes(indicators) + numbers(target) + b"\0"


def instructions():
    """Arithmetic on entries, searches through arrays, and branches forward and back, 8,192 in all."""
    count = 8_192
    rows = []
    for place in range(0, count, 4):
        rows.append(instruction(1, (2, BY + 1), (2, 99), (2, BY + 1), (1, 2, 3)))
        rows.append(instruction(19, (1, 0), (2, BY + 1), indicators=(1, 0, 3)))
        rows.append(instruction(14, indicators=(1, 2, 3), target=count - 1 - place))
        rows.append(instruction(9, factor2=(2, 5), result=(1, 0)))
    forms = field(1, 0, 4) + field(1, 1, 4, sequence=1, entries=99)
    return header(80, 0, 2, detail=count) + forms + b"0000" * 100 + b"".join(rows)


def lines_of(puts):
    """A thousand lines of 200 fields, each put out in one of these ways: a code or W, the field, the word's field."""
    fields = [bytes([1, ord(edit) if edit else 0, 0, 0]) + numbers(of, 0, word, 60) + bytes(4) for edit, of, word in puts]
    row = bytes([1, 2, 0, 1, 0, 0]) + numbers(1, 200, 0) + numbers(1) + bytes([0, 1]) + b"".join(fields[i % len(fields)] for i in range(200))
    forms = field(2, 0, 20) + field(1, 0, 15, 2) + field(2, 3, 24)
    values = b" " * 20 + b"0" * 15 + b" ,   ,   ,   ,  0.  -EUR"
    return header(80, 60, 3, lines=1_000) + forms + values + row * 1_000


def lines():
    """Texts as they are, and numbers by a code."""
    return lines_of([(None, 1, 0), ("J", 2, 0)])


def lines_of_words():
    """Numbers of 15 digits by a word of 24 characters."""
    return lines_of([("W", 2, 3)])


def record_types():
    """Control fields of nine levels, and input fields with three indicators."""
    levels = b"".join(bytes([1 + i % 9, 0]) + numbers(i + 1, i + 1) for i in range(100))
    inputs = b"".join(numbers(i + 1, i + 15, 1) + bytes([1, 2, 3, 0]) for i in range(500))
    row = bytes([1, 0]) + numbers(0, 100, 500) + levels + inputs
    return header(9_999, 0, 1, types=200) + field(1, 0, 15) + b"0" * 15 + row * 200


# Each with what its verification may take, if that is limited.
PROGRAMS = (
    ("8,192 instructions", instructions, LIMIT),
    ("1,000 lines of 200 fields", lines, LIMIT),
    ("the same, each by a word of 24", lines_of_words, None),
    ("200 types of 100 and 500 fields", record_types, LIMIT),
)


def line_of(path):
    return subprocess.run([RPG2, "verify", path], stdout=subprocess.PIPE, stderr=subprocess.DEVNULL, check=False).stdout.decode()


def seconds(path, rounds):
    least = None
    for _ in range(rounds):
        began = time.perf_counter()
        line_of(path)
        spent = time.perf_counter() - began
        least = spent if least is None else min(least, spent)
    return least


def instructions_of(path, *options):
    """What callgrind counts."""
    words = ["valgrind", "--tool=callgrind", "--callgrind-out-file=/dev/null", *options, RPG2, "verify", path]
    told = subprocess.run(words, capture_output=True, check=False)
    found = re.search(r"Collected : (\d+)", told.stderr.decode())
    return int(found.group(1))


def write(folder, name, content):
    path = os.path.join(folder, name)
    with open(path, "wb") as file:
        file.write(content)
    return path


def measure(folder, make, rounds):
    """The line, the bytes, the seconds, and the instructions of decoding and of verifying, or None where valgrind isn't there."""
    content = make()
    empty, whole = (write(folder, name, it) for name, it in (("empty", b""), ("whole", content)))
    line = line_of(whole).strip()
    if not line.startswith("accepted"):
        sys.exit(line)
    spent = seconds(whole, rounds) - seconds(empty, rounds)
    if not shutil.which("valgrind"):
        return line, len(content), spent, None
    decoding = instructions_of(whole, "--toggle-collect=" + DECODES)
    return line, len(content), spent, (decoding, instructions_of(whole) - instructions_of(empty) - decoding)


def main(words):
    rounds = int(words[0]) if words else 20
    is_slow = False
    print(f"{'program':32} {'bytes':>9} {'ms':>8} {'decode/M instr.':>16} {'verify/M instr.':>16}")
    with tempfile.TemporaryDirectory() as folder:
        for name, make, limit in PROGRAMS:
            line, size, spent, counts = measure(folder, make, rounds)
            counted = " ".join(f"{count / 1e6:16.1f}" for count in counts) if counts else f"{'-':>16} {'-':>16}"
            print(f"{name:32} {size:9} {1000 * spent:8.2f} {counted}  {line}")
            is_slow = is_slow or (limit is not None and spent >= limit)
    return 1 if is_slow else 0


if __name__ == "__main__":
    sys.exit(main(sys.argv[1:]))
