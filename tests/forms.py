"""Forms of any length by random sources: what they print, compared with a count of lines through all pages."""

import random
import tempfile
from collections.abc import Callable, Iterable
from functools import partial
from pathlib import Path

from case_runs import beside, first_line
from fault_sources import card
from outcome import Outcome
from program import Program

COUNT = 300
AT_ONCE = 25


class Paper:
    """Lines counted from 0 through all pages of a form, and whether overflow is on."""

    def __init__(self, lines: int, overflow: int):
        self.lines, self.overflow = lines, overflow
        self.at = self.last = 0
        self.text, self.is_on, self.is_turned = "", False, False

    def move(self, target: int, is_space: bool) -> None:
        """Goes down to a line. Overflow: reached on the page, or passed by a space that leaves the page."""
        is_near = self.at % self.lines + 1 < self.overflow
        if target // self.lines == self.at // self.lines:
            turns = target > self.at and target % self.lines + 1 >= self.overflow
        else:
            turns = is_space and is_near
        self.at = target
        self.is_on, self.is_turned = self.is_on or turns, self.is_turned or turns

    def skip(self, line: int) -> None:
        target = self.at - self.at % self.lines + line - 1
        self.move(target if target >= self.at else target + self.lines, False)

    def place(self, line: "Line", text: str) -> None:
        """Moves before a line, prints it, and moves after it."""
        for skip, space, is_printed in ((line.skips[0], line.spaces[0], True), (line.skips[1], line.spaces[1], False)):
            if skip:
                self.skip(skip)
            self.move(self.at + space, True)
            if is_printed:
                pages = self.at // self.lines - self.last // self.lines
                feeds = self.at - self.last if pages == 0 else self.at % self.lines
                again = "\r" if self.text and self.at == self.last else ""
                self.text += again + "\f" * pages + "\n" * feeds + text
                self.last = self.at


class Line:
    """A line: its time, the type of record that it prints, or none for a heading, and its movements."""

    def __init__(self, chance: random.Random, lines: int, kind: str):
        self.kind = kind
        self.spaces = (chance.choice((0, 0, 1, 2, 3)), chance.choice((0, 1, 1, 2, 3)))
        self.skips = tuple(chance.choice((0,) * often + (chance.randint(1, lines),)) for often in ((1, 20) if kind == "1P" else (12, 20)))

    def cards(self) -> list[str]:
        skips = [f"{it:02}" if it < 100 else f"{'AB'[it // 10 - 10]}{it % 10}" if it else "" for it in self.skips]
        times = {"1P": "H", "LR": "T"}.get(self.kind, "D")
        moves = [(17, str(self.spaces[0])), (18, str(self.spaces[1])), *((at, it) for at, it in zip((19, 21), skips) if it != "00")]
        head = card("O", (7, "PRINT"), (15, times), *moves, (24, self.kind))
        field = {"1P": ((32, "PAGE"), (43, "4")), "LR": ((43, "3"), (45, "'END'"))}.get(self.kind, ((32, "REC"), (43, "2")))
        others = [card("O", (14, "OR"), (24, "OV"))] if self.kind == "1P" else []
        return [head, *others, card("O", *field)]


class Job:
    """A source, its records and what they print."""

    def __init__(self, number: int):
        chance = random.Random(f"form {number}")
        self.lines = chance.choice((chance.randint(3, 12), chance.randint(3, 112)))
        self.overflow = chance.randint(max(1, self.lines - 6), self.lines) if chance.random() < 0.8 else chance.randint(1, self.lines)
        kinds = ["1P", *(chance.choice(("01", "02")) for _ in range(chance.randint(1, 4))), *(["LR"] if chance.random() < 0.5 else [])]
        self.printed = [Line(chance, self.lines, it) for it in kinds]
        self.records = [chance.choice("AB") + str(it % 10) for it in range(chance.randint(1, 90))]

    def source(self) -> str:
        page = f"{self.lines:03}FL{self.overflow:03}OL"
        files = [card("F", (7, "INPUT"), (15, "IPE"), (19, "F"), (24, "   2"), (40, "READ40"))]
        files.append(card("F", (7, "PRINT"), (15, "O"), (19, "F"), (24, " 120"), (33, "OV"), (39, "LPRINTER")))
        types = [card("I", (7, "INPUT"), (15, it), (19, on), (24, code), (26, letter)) for it, on, code, letter in (("AA", "01", "1", "CA"), ("BB", "02", "1", "CB"))]
        fields = card("I", (47, "1"), (51, "2"), (53, "REC"))
        cards = [*files, card("L", (7, "PRINT"), (15, page)), types[0], fields, types[1], fields]
        return "".join(f"{it}\n" for it in [*cards, *(one for it in self.printed for one in it.cards())])

    def put(self, paper: Paper, kind: str, text: str) -> None:
        for line in self.printed:
            if line.kind == kind:
                paper.place(line, text)

    def meant(self) -> str:
        """The print: each cycle has its detail lines, the last one its total lines, and the others headings where overflow is on."""
        paper, page, was_fetched = Paper(self.lines, self.overflow), 1, False
        for number, record in enumerate([None, *self.records]):
            paper.is_turned = False
            self.put_detail(paper, record, page)
            paper.is_on = paper.is_on and (paper.is_turned or not was_fetched)
            if number == len(self.records):
                self.put(paper, "LR", "END")
                break
            was_fetched = paper.is_on
            if was_fetched:
                page += 1
                self.put(paper, "1P", f"{page:4}")
        return paper.text + ("\n" if paper.text else "")

    def put_detail(self, paper: Paper, record: str | None, page: int) -> None:
        for line in self.printed:
            if line.kind == ("1P" if record is None else "01" if record[0] == "A" else "02"):
                paper.place(line, record or f"{page:4}")


def shown(program: Program, number: int) -> Outcome:
    job, place = Job(number), f"forms.py, form {number}"
    with tempfile.TemporaryDirectory() as name:
        folder = Path(name)
        (folder / "source").write_text(job.source(), encoding="ascii")
        (folder / "input").write_text("".join(f"{it}\n" for it in job.records), encoding="ascii")
        line, status, errors = program.answer(["go", "source", "input", "print"], folder)
        if status:
            return Outcome(place, line, f"\n{errors}\n{job.source()}")
        came, wanted = (folder / "print").read_bytes(), job.meant().encode()
    if came == wanted:
        return Outcome(place, "as its lines are counted")
    return Outcome(place, f"print, line {first_line(came, wanted)}", f"{beside(came, wanted)}\n--- source\n{job.source()}")


def shown_part(program: Program, numbers: range) -> list[Outcome]:
    return [shown(program, it) for it in numbers]


def jobs_of(program: Program) -> Iterable[Callable[[], list[Outcome]]]:
    for first in range(0, COUNT, AT_ONCE):
        yield partial(shown_part, program, range(first, first + AT_ONCE))
