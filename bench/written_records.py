"""Packed and binary output by chance, for bench/records.py: decks whose O cards have P and B, what `--deck` makes of them, and the records that
`--to` makes of their lines. Nothing of rpg2 is used."""

import random
import subprocess
from dataclasses import dataclass, field
from pathlib import Path

RANDOM = random.Random(95)
MINUS = "}JKLMNOPQR"
PLAIN = [chr(it) for it in range(32, 127) if chr(it) not in "[]^~'"]


@dataclass
class Line:
    """A line of the output file: its letter, its packed and binary fields (name, digits, form, end), and where its texts are."""

    letter: str
    numbers: list = field(default_factory=list)
    texts: list = field(default_factory=list)

    def size(self, digits, form):
        return digits // 2 + 1 if form == "P" else 2 if digits <= 4 else 4

    def width(self, digits, form):
        return 2 * self.size(digits, form) - 1 if form == "P" else 4 if digits <= 4 else 9


def card(**columns):
    line = [" "] * 80
    for place, text in columns.items():
        at = int(place[1:]) - 1
        line[at : at + len(text)] = text
    return "".join(line).rstrip() + "\n"


def line_by_chance(letter, length, names):
    line, at = Line(letter), 1
    while True:
        name, digits = RANDOM.choice(list(names.items()))
        form = RANDOM.choice("PPB") if digits <= 9 else "P"
        size = RANDOM.randint(1, 8) if RANDOM.random() < 0.3 else 0
        taken = size or line.size(digits, form)
        if at + taken > length:
            return line
        if size:
            line.texts.append((at, size))
        else:
            line.numbers.append((name, digits, form, at + size + taken))
        at += taken + RANDOM.randint(0, 2)


def deck_of(length, names, arrays, lines, moved):
    """The deck as the shop has it, or as `--deck` makes it."""
    width = max(length + sum(line.width(d, f) for _, d, f, _ in line.numbers) for line in lines) if moved else length
    cards = [card(c6="F", c7="IN", c15="IP", c19="F", c24="  80", c40="DISK"), card(c6="F", c7="OUT", c15="O", c19="F", c24=f"{width:4}", c40="DISK")]
    cards += [card(c6="E", c27=name, c36="  12", c40=f"{names[name + ',3']:3}", c44="0") for name in arrays]
    cards += [card(c6="I", c7="IN", c15="AA", c19="01"), card(c6="I", c44="   1   8", c53="TEXT")]
    cards += [card(c6="C", c28="Z-ADD", c33="0", c43=name, c49=f"{digits:3}", c52="0") for name, digits in names.items() if "," not in name]
    for number, line in enumerate(lines):
        cards.append(card(c6="O", c7="OUT" if number == 0 else "", c15="D", c24="01"))
        cards.append(card(c6="O", c40="   1", c45=f"'{line.letter}'"))
        cards += [card(c6="O", c32="TEXT", c40=f"{at + size:4}") for at, size in line.texts if size == 8]
        at = length
        for name, digits, form, end in line.numbers:
            at += line.width(digits, form)
            written = card(c6="O", c32=name, c40=f"{at if moved else end:4}", c44=" " if moved else form)
            cards.append(written.rstrip("\n").ljust(44) + "\n")
    return "".join(cards)


def record_by_chance(length, line):
    """A line as the job writes it, and its record."""
    columns, record = [" "] * length, bytearray(b"\x40" * length)
    columns[0] = line.letter
    for at, size in line.texts:
        columns[at : at + size] = RANDOM.choices(PLAIN, k=size)
    record[:] = "".join(columns).encode("cp037")
    digits = ""
    for _, count, form, end in line.numbers:
        number = RANDOM.choice([0, 1, 10**count - 1, RANDOM.randrange(10**count)])
        number = -number if RANDOM.random() < 0.4 else number
        text = f"{abs(number):0{count}}"
        text = text[:-1] + MINUS[int(text[-1])] if number < 0 else text
        if number >= 0 and RANDOM.random() < 0.2:
            text = str(number).rjust(count)
        digits += text.rjust(line.width(count, form))
        size = line.size(count, form)
        if form == "P":
            record[end - size : end] = bytes.fromhex(f"{abs(number):0{2 * size - 1}}" + ("d" if number < 0 else "f"))
        else:
            record[end - size : end] = number.to_bytes(size, "big", signed=True)
    return ("".join(columns) + digits).rstrip(" ") + "\n", bytes(record)


def compare_outputs(done, program, folder, decks, count):
    """Decks by chance: the new deck, and the records of lines by chance."""
    wrong = []
    for _ in range(decks):
        length = RANDOM.randint(30, 120)
        names = {f"N{k}": RANDOM.randint(1, 15) for k in range(6)}
        names["AR,3"] = RANDOM.randint(1, 15)
        lines = [line_by_chance(letter, length, names) for letter in "DTX"[: RANDOM.randint(1, 3)]]
        if not lines[0].numbers:
            lines[0] = Line(lines[0].letter, [("N0", names["N0"], "P", length)])
        decks_of = [deck_of(length, names, ["AR"], lines, moved) for moved in (False, True)]
        made = [record_by_chance(length, RANDOM.choice(lines)) for _ in range(count)]
        Path(folder, "deck").write_text(decks_of[0], encoding="ascii")
        Path(folder, "IN").write_text("".join(it[0] for it in made), encoding="ascii")
        Path(folder, "EMPTY").write_bytes(b"")
        for words in (["EMPTY", "NONE", "--by", "deck", "--deck", "NEW"], ["IN", "OUT", "--to", "deck"]):
            ran = subprocess.run([program, "records", *words], cwd=folder, capture_output=True, text=True, check=False)
            if ran.returncode:
                wrong.append(ran.stdout + ran.stderr)
        if Path(folder, "NEW").read_text(encoding="ascii") != decks_of[1]:
            wrong.append("another new deck for\n" + decks_of[0])
        if Path(folder, "OUT").read_bytes() != b"".join(it[1] for it in made):
            wrong.append("other records by\n" + decks_of[0])
    done.same(f"{decks} decks with packed output, {decks * count} records", wrong[:3], [])
