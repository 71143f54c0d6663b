#!/usr/bin/env python3
"""Compares `rpg2 records --csv` with Python's csv and decimal, byte for byte.

usage: bench/csv_rows.py [ROWS [DAMAGED]]        100,000 and 5,000 if they aren't given; RPG2 names the program

It makes decks and rows at random: texts and numbers of all sizes, columns in another order, quoted and not, line feeds with and without
carriage returns. The lines that are wanted are calculated by Python's csv and decimal. Then rows are damaged, a byte at a time: rpg2 must
reject them, or make the lines that Python's strict reader makes of them. Then jobs write such lines to a disk file, with edit codes, and
`--to-csv` must find the values that they read. Before all that it times rpg2 and Python's csv reading the same million rows, and reports the
most memory that rpg2 took. It prints a line for each comparison; the status is 1 if one differs.
"""

import csv
import io
import os
import random
import subprocess
import sys
import tempfile
import time
from dataclasses import dataclass
from decimal import Decimal, InvalidOperation
from pathlib import Path

TOP = Path(__file__).resolve().parent.parent
RPG2 = os.environ.get("RPG2", str(TOP / "crates/rpg2/out/rpg2"))
MINUS = "}JKLMNOPQR"
RANDOM = random.Random(95)


@dataclass(frozen=True)
class Field:
    """A field: its columns from 0, up to the end, and its decimals, None for a text."""

    name: str
    start: int
    end: int
    decimals: int | None

    @property
    def width(self):
        return self.end - self.start

    def card(self):
        decimals = " " if self.decimals is None else self.decimals
        return "     I" + " " * 37 + f"{self.start + 1:4}{self.end:4}{decimals}{self.name}\n"

    def zoned(self, value):
        digits = str(abs(value)).zfill(self.width)
        return digits[:-1] + MINUS[int(digits[-1])] if value < 0 else digits

    def text_of(self, cell):
        """The characters of a cell, or None if it has none."""
        if self.decimals is None:
            cell = cell.rstrip(" ")
            return cell.ljust(self.width) if len(cell) <= self.width and all(" " <= c <= "~" for c in cell) else None
        cell = cell.strip(" ")
        if cell == "":
            return " " * self.width
        if not set(cell) <= set("0123456789.+-") or not set(cell) & set("0123456789"):
            return None
        if cell.endswith("-") and cell[0] not in "+-":
            cell = "-" + cell[:-1]
        try:
            value = Decimal(cell).scaleb(self.decimals)
        except InvalidOperation:
            return None
        if value != value.to_integral_value() or abs(value) >= 10**self.width:
            return None
        return self.zoned(int(value))


def some_fields():
    fields, at = [], 0
    for k in range(RANDOM.randrange(2, 8)):
        width = RANDOM.randrange(1, 10)
        at += RANDOM.choice((0, 0, 0, 1, 2))
        fields.append(Field(f"F{k}", at, at + width, RANDOM.choice((None, 0, min(2, width), width))))
        at += width
    return fields


def deck_of(fields):
    length = fields[-1].end
    return f"     FIN      IP  F    {length:4}            DISK\n     IIN      AA  01\n" + "".join(field.card() for field in fields)


def some_cell(field):
    if field.decimals is None:
        return "".join(RANDOM.choice("AB \",;x'0") for _ in range(RANDOM.randrange(field.width + 1)))
    value = RANDOM.randrange(10**field.width) * RANDOM.choice((1, 1, -1, 0))
    text = format(Decimal(value).scaleb(-field.decimals), "f")
    return RANDOM.choice((text, text, text, " " + text + " ", "+" + text if value >= 0 else text[1:] + "-", ""))


def lines_of(fields, names, rows):
    """The lines of rows, or None if one has none."""
    by_name = {field.name: field for field in fields}
    out = []
    for row in rows:
        if len(row) != len(names):
            return None
        line = [" "] * fields[-1].end
        for name, cell in zip(names, row):
            field = by_name[name]
            text = field.text_of(cell)
            if text is None:
                return None
            line[field.start : field.end] = text
        out.append("".join(line).rstrip(" ") + "\n")
    return "".join(out)


def convert(folder, deck, data):
    (folder / "deck.rpg").write_text(deck)
    (folder / "in").write_bytes(data)
    (folder / "out").unlink(missing_ok=True)
    done = subprocess.run([RPG2, "records", "in", "out", "--by", "deck.rpg", "--csv"], cwd=folder, capture_output=True)
    if done.returncode == 0:
        return (folder / "out").read_text()
    return None if done.returncode == 3 else f"status {done.returncode}"


def made(fields, count):
    """Names, rows and their bytes."""
    order = RANDOM.sample(fields, len(fields))
    names = [field.name for field in order]
    rows = [[some_cell(field) for field in order] for _ in range(count)]
    text = io.StringIO(newline="")
    writer = csv.writer(text, lineterminator=RANDOM.choice(("\n", "\r\n")), quoting=RANDOM.choice((csv.QUOTE_MINIMAL, csv.QUOTE_ALL)))
    writer.writerow([RANDOM.choice((str.lower, str.upper))(name) for name in names])
    writer.writerows(rows)
    return names, rows, text.getvalue().encode()


def compare_rows(folder, wanted):
    differ = count = decks = 0
    while count < wanted:
        fields = some_fields()
        names, rows, data = made(fields, min(500, wanted - count))
        count, decks = count + len(rows), decks + 1
        if convert(folder, deck_of(fields), data) != lines_of(fields, names, rows):
            differ += 1
            print(f"deck {decks} differs")
    print(f"{count} rows of {decks} decks: {differ} decks differ")
    return differ


def compare_damaged(folder, wanted):
    """A byte is changed, left out or put in behind the names."""
    differ = refused = 0
    for _ in range(wanted):
        fields = some_fields()
        names, _, data = made(fields, 3)
        start = data.index(b"\n") + 1
        place = RANDOM.randrange(start, len(data))
        byte = bytes([RANDOM.choice((0, 9, 10, 13, 32, 34, 34, 39, 44, 45, 46, 48, 65, 127, 200, RANDOM.randrange(256)))])
        data = data[:place] + RANDOM.choice((byte, b"", byte + data[place : place + 1])) + data[place + 1 :]
        got = convert(folder, deck_of(fields), data)
        refused += got is None
        if got is None:
            continue
        try:
            rows = list(csv.reader(io.StringIO(data.decode(), newline=""), strict=True))[1:]
            same = lines_of(fields, names, [row for row in rows if row]) == got
        except (csv.Error, UnicodeDecodeError):
            same = False
        if not same:
            differ += 1
            print(f"damaged: {data!r} became {got!r}")
    print(f"{wanted} damaged: {refused} rejected, {differ} differ")
    return differ


CODES = " 1234ABCDJKLMXZ"


def written_deck(fields):
    """A deck of a job that writes each field into 28 columns, and the fields' edit codes."""
    codes, cards = [], ""
    for place, field in enumerate(fields):
        code = " " if field.decimals is None else RANDOM.choice(CODES)
        fill = RANDOM.choice(("", "'*'", "'$'")) if code in "1234ABCDJKLM" and code != " " else ""
        codes.append(code)
        cards += " " * 5 + "O" + " " * 25 + f"{field.name:6}{code} {28 * (place + 1):4} {fill}\n"
    files = f"     FIN      IP  F    {fields[-1].end:4}            DISK\n     FNEW     O   F    {28 * len(fields):4}            DISK\n"
    reading = "     IIN      AA  01\n" + "".join(field.card() for field in fields)
    return files + reading + "     ONEW     D        01\n" + cards, codes


def written_cell(field, code, cell):
    """The cell of what a job writes for a cell that it read: no sign if the code has none, and all decimals."""
    if field.decimals is None:
        return cell.rstrip(" ")
    cell = cell.strip(" ") or "0"
    if cell.endswith("-") and cell[0] not in "+-":
        cell = "-" + cell[:-1]
    value = Decimal(cell)
    if code in "1234XZ":
        value = abs(value)
    return format(value if value else Decimal(0), f".{field.decimals}f")


def compare_written(folder, wanted):
    differ = count = decks = 0
    while count < wanted:
        fields = some_fields()
        names, rows, data = made(fields, min(25, wanted - count))
        deck, codes = written_deck(fields)
        count, decks = count + len(rows), decks + 1
        text = io.StringIO(newline="")
        writer = csv.writer(text, lineterminator="\n")
        writer.writerow([field.name for field in fields])
        by_name = [dict(zip(names, row)) for row in rows]
        writer.writerows([[written_cell(field, code, row[field.name]) for field, code in zip(fields, codes)] for row in by_name])
        (folder / "new.csv").unlink(missing_ok=True)
        convert(folder, deck, data)
        for words in (["go", "deck.rpg", "out", "--disk", "disk"], ["records", "disk", "new.csv", "--by", "deck.rpg", "--to-csv"]):
            done = subprocess.run([RPG2, *words], cwd=folder, capture_output=True)
        if not (folder / "new.csv").exists() or (folder / "new.csv").read_text() != text.getvalue():
            differ += 1
            print(f"job {decks} differs: {done.stdout + done.stderr}")
    print(f"{count} lines of {decks} jobs: {differ} jobs differ")
    return differ


def most_memory(words, folder):
    """Runs a command. Returns how many MB it had in memory at most."""
    run = subprocess.Popen(words, cwd=folder, stdout=subprocess.DEVNULL)
    most = 0
    while run.poll() is None:
        try:
            most = max([most] + [int(line.split()[1]) for line in open(f"/proc/{run.pid}/status") if line.startswith("VmHWM")])
        except OSError:
            pass
        time.sleep(0.01)
    return most / 1024


def measure(folder):
    deck = deck_of([Field("NAME", 0, 10, None), Field("CITY", 10, 20, None), Field("QTY", 20, 26, 0), Field("PRICE", 26, 34, 2)])
    (folder / "deck.rpg").write_text(deck)
    with open(folder / "in", "w", newline="") as file:
        file.write("name,city,qty,price\n")
        for row in range(1_000_000):
            file.write(f'NAME{row % 1000},"CITY, {row % 97}",{row},{row % 10000}.{row % 100:02}\n')
    size = (folder / "in").stat().st_size / 1e6
    start = time.perf_counter()
    with open(folder / "in", newline="") as file:
        for _ in csv.reader(file):
            pass
    python = time.perf_counter() - start
    start = time.perf_counter()
    memory = most_memory([RPG2, "records", "in", "out", "--by", "deck.rpg", "--csv"], folder)
    ours = time.perf_counter() - start
    print(f"1,000,000 rows, {size:.1f} MB: Python's csv reads them in {python:.2f} s, rpg2 converts them in {ours:.2f} s; {memory:.1f} MB at most")


def main():
    rows = int(sys.argv[1]) if len(sys.argv) > 1 else 100_000
    damaged = int(sys.argv[2]) if len(sys.argv) > 2 else 5_000
    with tempfile.TemporaryDirectory() as name:
        folder = Path(name)
        measure(folder)
        differ = compare_rows(folder, rows) + compare_damaged(folder, damaged) + compare_written(folder, damaged)
    return 1 if differ else 0


if __name__ == "__main__":
    sys.exit(main())
