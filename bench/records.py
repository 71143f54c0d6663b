#!/usr/bin/env python3
"""Compares `rpg2 records` with converters that share nothing with it, byte for byte.

usage: bench/records.py [RECORDS]        100,000 where it isn't given; RPG2 names the program

It makes decks and records by chance: texts, zoned, packed and binary numbers of all sizes, and arrays of such, two record types, the three framings, code page 037
and ASCII. A converter of its own, over Python's cp037, says which lines and which new deck are wanted, and which records lines go back to. Lines
with something that has no place must be refused, each for its reason. Decks with packed and binary output get their new decks, and their lines
become records (written_records.py). All 256 bytes are held against the code page. Records of text are compared with `dd conv=ascii` and with `iconv`. Last, `rpg2 records` and
`iconv | fold` are timed side by side. It prints a line for each comparison; the status is 1 where one differs.
"""

import os
import random
import re
import subprocess
import sys
import tempfile
import time
from dataclasses import dataclass
from pathlib import Path

from written_records import card, compare_outputs

TOP = Path(__file__).resolve().parent.parent
RPG2 = os.environ.get("RPG2", str(TOP / "crates/rpg2/out/rpg2"))
MINUS = "}JKLMNOPQR"
PLUS = "{ABCDEFGHI"
# What both `dd conv=ebcdic` and code page 037 have in the same places.
PLAIN = [chr(it) for it in range(32, 127) if chr(it) not in "[]^~"]
RANDOM = random.Random(60)


@dataclass(frozen=True)
class Field:
    """A field of a record: its columns from 0, up to the end."""

    name: str
    start: int
    end: int
    kind: str  # text, zoned, packed or binary
    entries: int = 0  # of an array, and the digits of each
    length: int = 0

    @property
    def digits(self):
        if self.entries:
            return self.entries * self.length
        size = self.end - self.start
        return {"packed": 2 * size - 1, "binary": {2: 4, 4: 9}.get(size, 0), "zoned": size, "text": 0}[self.kind]


@dataclass(frozen=True)
class Layout:
    """A file's records: their length, and the fields of the types A and B."""

    length: int
    types: dict

    def deck(self, moved=False):
        width = max(self.width(code) for code in self.types) if moved else self.length
        cards = [card(c6="F", c7="MASTER", c15="IP", c19="F", c24=f"{width:4}", c40="DISK")]
        arrays = [it for fields in self.types.values() for it in fields if it.entries]
        cards += [card(c6="E", c27=it.name, c36=f"{it.entries:4}", c40=f"{it.length:3}", c44="0") for it in arrays]
        for number, (code, fields) in enumerate(self.types.items(), start=1):
            cards.append(card(c6="I", c7="MASTER", c15=code * 2, c19=f"{number:02}", c21=f"   1 C{code}"))
            end = self.length
            for field in fields:
                is_hidden = field.kind in ("packed", "binary")
                first, last = (end + 1, end + field.digits) if moved and is_hidden else (field.start + 1, field.end)
                end += field.digits if is_hidden else 0
                form = {"packed": "P", "binary": "B"}.get(field.kind, " ") if not moved else " "
                decimals = " " if field.kind == "text" or field.entries else "0"
                cards.append(card(c6="I", c43=form, c44=f"{first:4}{last:4}", c52=decimals, c53=field.name))
        return "".join(cards)

    def width(self, code):
        return self.length + sum(it.digits for it in self.types[code] if it.kind in ("packed", "binary"))


def layout_by_chance():
    length = RANDOM.randint(60, 200)
    types = {}
    for code in "AB":
        fields, at = [], 1
        while at < length:
            kind = RANDOM.choice(["text", "zoned", "packed", "packed", "binary"])
            size = {"text": RANDOM.randint(1, 12), "zoned": RANDOM.randint(1, 9), "packed": RANDOM.randint(1, 8), "binary": RANDOM.choice([2, 4])}[kind]
            name, entries, digits = f"F{len(fields)}", 0, 0
            if kind in ("packed", "binary") and RANDOM.random() < 0.3:
                name, entries, digits = f"{code}{len(fields)}", RANDOM.randint(1, 5), RANDOM.randint(1, 15 if kind == "packed" else 9)
                size = entries * bytes_of(kind, digits)
            if at + size > length:
                break
            fields.append(Field(name, at, at + size, kind, entries, digits))
            at += size
        types[code] = fields
    return Layout(length, types)


def bytes_of(kind, digits):
    """How many bytes an entry of an array has."""
    return digits // 2 + 1 if kind == "packed" else 2 if digits <= 4 else 4


def zoned(number, digits):
    text = f"{abs(number):0{digits}}"
    return text[:-1] + MINUS[int(text[-1])] if number < 0 else text


def packed(number, size, sign):
    return bytes.fromhex(f"{abs(number):0{2 * size - 1}}" + sign)


def number_by_chance(digits):
    number = RANDOM.choice([0, 1, 10**digits - 1, RANDOM.randrange(10**digits)])
    return -number if RANDOM.random() < 0.4 else number


def encoded(text, page):
    return text.encode("cp037" if page == "ebcdic" else "ascii")


def field_by_chance(field, page):
    """The bytes of a field, the characters of its columns, its digits after them, and the bytes that these go back to."""
    size = field.end - field.start
    if field.kind == "text":
        text = "".join(RANDOM.choices(PLAIN, k=size))
        return encoded(text, page), text, "", encoded(text, page)
    if field.entries:
        each = bytes_of(field.kind, field.length)
        parts = [number_by_form(field.kind, each, field.length) for _ in range(field.entries)]
        return tuple(type(of[0])().join(of) for of in zip(*parts))
    if field.kind == "zoned":
        return zoned_by_chance(number_by_chance(size), size, page)
    return number_by_form(field.kind, size, field.digits)


def number_by_form(kind, size, length):
    """The same of a packed or binary number of so many bytes, which has no more digits than a line has of it."""
    number = number_by_chance(length)
    digits = zoned(number, length)
    if kind == "packed":
        sign = RANDOM.choice("bd") if number < 0 else RANDOM.choice("acef")
        return packed(number, size, sign), " " * size, digits, packed(number, size, "d" if number < 0 else "f")
    written = number.to_bytes(size, "big", signed=True)
    return written, " " * size, digits, written


def zoned_by_chance(number, size, page):
    """Zones C and D are the letters of the page; A and E are plain digits, B is a minus."""
    text = zoned(number, size)
    if number >= 0 and RANDOM.random() < 0.3:
        text = text[:-1] + PLUS[int(text[-1])]
    written = encoded(text, page)
    if page == "ascii":
        return written, text, "", written
    last = written[-1]
    if number < 0 and RANDOM.random() < 0.3:
        return written[:-1] + bytes([0xB0 | last & 15]), text, "", written
    if number >= 0 and last >> 4 == 0xF and RANDOM.random() < 0.3:
        return written[:-1] + bytes([RANDOM.choice([0xA0, 0xE0]) | last & 15]), text, "", written
    return written, text, "", written


def record_by_chance(layout, page):
    """The bytes of a record, its line, and the bytes that the line goes back to."""
    code = RANDOM.choice("AB")
    parts = [field_by_chance(it, page) for it in layout.types[code]]
    used = max((it.end for it in layout.types[code]), default=1)
    rest = "".join(RANDOM.choices(PLAIN, k=layout.length - used))
    front = code + "".join(it[1] for it in parts) + rest
    whole = encoded(code, page) + b"".join(it[0] for it in parts) + encoded(rest, page)
    back = encoded(code, page) + b"".join(it[3] for it in parts) + encoded(rest, page)
    return whole, (front + "".join(it[2] for it in parts)).rstrip(" ") + "\n", back


def rpg2(folder, *words):
    return subprocess.run([RPG2, "records", *words], cwd=folder, capture_output=True, text=True, check=False)


class Comparisons:
    def __init__(self):
        self.failed = 0

    def same(self, what, came, wanted):
        if came == wanted:
            print(f"same: {what}")
            return
        self.failed += 1
        at = next((i for i, (a, b) in enumerate(zip(came, wanted)) if a != b), min(len(came), len(wanted)))
        print(f"DIFFERS: {what}, at {at}: {came[at : at + 40]!r}, wanted {wanted[at : at + 40]!r}")


def compare_layout(done, folder, count, page, framing):
    layout = layout_by_chance()
    made = [record_by_chance(layout, page) for _ in range(count)]
    word = lambda it: (len(it) + 4).to_bytes(2, "big") + b"\0\0" if framing == ["--rdw"] else b""
    Path(folder, "IN").write_bytes(b"".join(word(it[0]) + it[0] for it in made))
    Path(folder, "deck").write_text(layout.deck(), encoding="ascii")
    options = framing + (["--ascii"] if page == "ascii" else [])
    name = f"{count} records of {layout.length} bytes, {page} {' '.join(framing)}".rstrip()
    width = max(layout.width(code) for code in layout.types)
    ran = rpg2(folder, "IN", "LINES", "--by", "deck", "--deck", "NEW", *options)
    done.same(f"{name}: what is told", ran.stdout + ran.stderr, f"records {count}, dropped 0, columns {width}\n")
    done.same(f"{name}: lines", Path(folder, "LINES").read_bytes(), "".join(it[1] for it in made).encode("ascii"))
    done.same(f"{name}: the new deck", Path(folder, "NEW").read_text(encoding="ascii"), layout.deck(moved=True))
    rpg2(folder, "LINES", "BACK", "--to", "deck", *options)
    done.same(f"{name}: back", Path(folder, "BACK").read_bytes(), b"".join(word(it[2]) + it[2] for it in made))


def damage_by_chance(layout, line):
    """A line with one thing that has no place, and what is said of it."""
    numbers = [it for it in layout.types[line[0]] if it.kind in ("packed", "binary")]
    end, places = layout.length, {}
    for it in numbers:
        places[it.name] = end
        end += it.digits
    numbers = [it for it in numbers if not it.entries]
    line = list(line.ljust(end + 1))
    if not numbers:
        line[end] = "X"
        return "".join(line), f'column {end + 1}: "X" is where no digits go'
    field = RANDOM.choice(numbers)
    at = places[field.name]
    told = f"columns {at + 1} to {at + field.digits} (card "
    kind = RANDOM.choice(["blank", "letter", "character", "short", "after"])
    if kind == "after":
        line[end] = "X"
        return "".join(line), f'column {end + 1}: "X" is where no digits go'
    if kind == "character":
        line[RANDOM.randrange(field.start, field.end)] = "7"
        return "".join(line), f"columns {field.start + 1} to {field.end} (card "
    if kind == "letter":
        line[RANDOM.randrange(at, at + field.digits)] = "?"
    else:
        line[at : at + field.digits if kind == "blank" else len(line)] = " " * (field.digits if kind == "blank" else len(line) - at)
    return "".join(line), told


def compare_damaged(done, folder, count):
    """Lines with one thing that has no place: each is refused, and said where."""
    wrong = []
    for _ in range(count):
        layout = layout_by_chance()
        lines = [record_by_chance(layout, "ebcdic")[1] for _ in range(3)]
        damaged, told = damage_by_chance(layout, lines[1].rstrip("\n"))
        longest = max(layout.width(code) for code in layout.types)
        told = f"it has more than {longest} bytes" if len(damaged.rstrip(" ")) > longest else told
        Path(folder, "deck").write_text(layout.deck(), encoding="ascii")
        Path(folder, "LINES").write_text(lines[0] + damaged.rstrip(" ") + "\n" + lines[2], encoding="ascii")
        ran = rpg2(folder, "LINES", "REFUSED", "--to", "deck")
        if ran.stdout != "record 2: refused\n" or not re.match(rf"LINES:2:\d+: error: {re.escape(told)}", ran.stderr) or Path(folder, "REFUSED").exists():
            wrong.append(f"{ran.stdout}{ran.stderr} wanted {told}")
    done.same(f"{count} damaged lines", wrong, [])


TEXT_DECK = card(c6="F", c7="MASTER", c15="IP", c19="F", c24="  80", c40="DISK") + card(c6="I", c7="MASTER", c15="AA", c19="01") + card(c6="I", c44="   1  80", c53="TEXT")


def compare_page(done, folder):
    """Each byte alone: its character by Python's code page, or that it is none."""
    deck = TEXT_DECK.replace("  80", "   1")
    Path(folder, "deck").write_text(deck, encoding="ascii")
    came, wanted = [], []
    for byte in range(256):
        Path(folder, "IN").write_bytes(bytes([byte]))
        Path(folder, "OUT").unlink(missing_ok=True)
        rpg2(folder, "IN", "OUT", "--by", "deck")
        came.append(Path(folder, "OUT").read_text(encoding="ascii") if Path(folder, "OUT").exists() else None)
        character = bytes([byte]).decode("cp037")
        wanted.append(f"{character}".rstrip(" ") + "\n" if " " <= character <= "~" else None)
    done.same("the characters of all bytes", came, wanted)


def compare_tools(done, folder, count):
    """Text by `dd conv=ebcdic` and by `iconv`, and back."""
    lines = "".join("".join(RANDOM.choices(PLAIN, k=79)) + "X\n" for _ in range(count)).encode("ascii")
    Path(folder, "deck").write_text(TEXT_DECK, encoding="ascii")
    Path(folder, "TEXT").write_bytes(lines)
    by_dd = subprocess.run(["dd", "conv=ebcdic", "status=none"], input=lines.replace(b"\n", b""), capture_output=True, check=True).stdout
    by_iconv = subprocess.run(["iconv", "-f", "ASCII", "-t", "IBM037"], input=lines.replace(b"\n", b""), capture_output=True, check=True).stdout
    for name, records in (("dd conv=ebcdic", by_dd), ("iconv", by_iconv)):
        Path(folder, "IN").write_bytes(records)
        rpg2(folder, "IN", "LINES", "--by", "deck")
        done.same(f"{count} records of {name}", Path(folder, "LINES").read_bytes(), lines)
    rpg2(folder, "TEXT", "BACK", "--to", "deck")
    done.same(f"{count} lines, as dd conv=ebcdic has them", Path(folder, "BACK").read_bytes(), by_dd)
    ascii_again = subprocess.run(["dd", "conv=ascii", "status=none"], input=Path(folder, "BACK").read_bytes(), capture_output=True, check=True).stdout
    done.same(f"{count} lines, back by dd conv=ascii", ascii_again, lines.replace(b"\n", b""))


def seconds(words, folder):
    start = time.time()
    subprocess.run(words, cwd=folder, shell=isinstance(words, str), stdout=subprocess.DEVNULL, check=True)
    return time.time() - start


def compare_times(folder, count):
    line = ("".join(PLAIN) * 2)[:79] + "X"
    Path(folder, "deck").write_text(TEXT_DECK, encoding="ascii")
    Path(folder, "IN").write_bytes(line.encode("cp037") * count)
    ours = min(seconds([RPG2, "records", "IN", "LINES", "--by", "deck"], folder) for _ in range(3))
    theirs = min(seconds("iconv -f IBM037 -t ASCII IN | fold -b -w 80 > LINES", folder) for _ in range(3))
    size = count * 80 / 1e6
    print(f"{size:.0f} MB of text: rpg2 records {ours:.2f} s ({size / ours:.0f} MB/s), iconv | fold {theirs:.2f} s ({size / theirs:.0f} MB/s)")


def main(words):
    if len(words) > 1:
        sys.exit(__doc__)
    count = int(words[0]) if words else 100_000
    done = Comparisons()
    with tempfile.TemporaryDirectory() as folder:
        compare_page(done, folder)
        compare_layout(done, folder, count, "ebcdic", [])
        for page in ("ebcdic", "ascii"):
            for framing in ([], ["--rdw"]):
                compare_layout(done, folder, max(1, count // 10), page, framing)
        compare_damaged(done, folder, 500)
        compare_outputs(done, RPG2, folder, 100, max(1, count // 100))
        compare_tools(done, folder, count)
        compare_times(folder, 10 * count)
    sys.exit(1 if done.failed else 0)


if __name__ == "__main__":
    main(sys.argv[1:])
