"""The file that ends the job alone, by random records: the job is that of both files with the other one cut.

It is cut before its first record whose match value is greater than all those of the ending file. Where that file has no match value, the
primary file leaves none of the secondary one, and the secondary file leaves the primary one up to its first match value.
"""

import random
import tempfile
from collections.abc import Callable, Iterable
from functools import partial
from pathlib import Path

from case_runs import beside, first_line
from fault_sources import card
from outcome import Outcome
from program import Program

COUNT = 300
AT_ONCE = 25
LEFT_OUT = 60  # of how many jobs the cut leaves records out, at least

NO_VALUE = "*"


class Job:
    """Two files, one of which ends the job."""

    def __init__(self, number: int):
        chance = random.Random(f"end {number}")
        self.ends_first, self.is_matched = chance.random() < 0.5, chance.random() < 0.85
        self.has_levels = chance.random() < 0.5
        letters = "ABCDEF"[: chance.randint(2, 6)]
        self.files = [self.records(chance, letters) for _ in "PS"]

    def records(self, chance: random.Random, letters: str) -> list[str]:
        """Records in the order of their match values, with some between them that have none."""
        values = sorted(chance.choice(letters) for _ in range(chance.choice((0, 1, 2, 4, 8))))
        for _ in range(chance.choice((0, 0, 1, 3))):
            values.insert(chance.randint(0, len(values)), NO_VALUE)
        return [f"{it}{number % 10}" for number, it in enumerate(values)]

    def value(self, record: str) -> str | None:
        return record[0] if self.is_matched and record[0] != NO_VALUE else None

    def source(self, ends: str) -> str:
        """The cards, with E or a blank for each of the two files."""
        level, match = ("L1" if self.has_levels else "  "), ("M1" if self.is_matched else "  ")
        cards = [card("F", (7, name), (15, f"I{use}{end}"), (19, "F"), (24, "   2"), (40, "DISK40")) for name, use, end in zip(("FIRST", "SECOND"), "PS", ends)]
        cards.append(card("F", (7, "PRINT"), (15, "O"), (19, "F"), (24, " 120"), (40, "PRINTER")))
        field = card("I", (47, "1"), (51, "2"), (53, "REC"))
        for name, other, own in (("FIRST", "01", "02"), ("SECOND", "03", "04")):
            cards += [card("I", (7, name), (15, "AA"), (19, other), (24, "1"), (26, f"C{NO_VALUE}")), field]
            key = card("I", (47, "1"), (51, "1"), (53, f"KEY{own[1]}"), (59, level), (61, match))
            cards += [card("I", (7, name), (15, "BB"), (19, own)), key, field]
        cards.append(card("C", (18, "N"), (28, "ADD"), (33, "1"), (43, "N"), (51, "3"), (52, "0")))
        cards.append(card("O", (7, "PRINT"), (15, "D"), (24, "01")))
        cards += [card("O", (14, "OR"), (24, on)) for on in ("02", "03", "04")]
        cards += [card("O", (32, "REC"), (43, "2"))]
        cards += [card("O", (24, "MR"), (43, "4"), (45, "'MR'"))] if self.is_matched else []
        for on in (["L1"] if self.has_levels else []) + ["LR"]:
            cards += [card("O", (15, "T"), (24, on)), card("O", (32, "N"), (43, "9")), card("O", (32, "REC"), (43, "6"))]
        return "".join(f"{it}\n" for it in cards)

    def cut(self) -> list[list[str]]:
        """The records of both files, without those of the other file that the ending one leaves out."""
        ending, other = self.files if self.ends_first else self.files[::-1]
        values = [it for it in map(self.value, ending) if it is not None]
        if not values and self.ends_first:
            return [ending, []]
        top = max(values, default="")
        left = next((at for at, it in enumerate(other) if (self.value(it) or "") > top), len(other))
        return [ending, other[:left]] if self.ends_first else [other[:left], ending]


def answered(program: Program, source: str, files: list[list[str]]) -> tuple[str, bytes]:
    """The end of a job with its cycles, and what it prints."""
    with tempfile.TemporaryDirectory() as name:
        folder = Path(name)
        for path, lines in zip(("input", "secondary"), files):
            (folder / path).write_text("".join(f"{it}\n" for it in lines), encoding="ascii")
        (folder / "source").write_text(source, encoding="ascii")
        line, _, errors = program.answer(["go", "source", "input", "print", "--secondary", "secondary"], folder)
        if not line.startswith("end of job"):
            return f"{line}\n{errors}\n{source}", b""
        return line.partition(", steps")[0], (folder / "print").read_bytes()


def shown(program: Program, number: int) -> Outcome:
    job, place = Job(number), f"ends.py, job {number}"
    wanted, print_wanted = answered(program, job.source("EE"), job.cut())
    came, print_came = answered(program, job.source("E " if job.ends_first else " E"), job.files)
    if not wanted.startswith("end of job") or came != wanted:
        return Outcome(place, f"{came}, and not {wanted}", f"\n{job.files}")
    if print_came != print_wanted:
        return Outcome(place, f"print, line {first_line(print_came, print_wanted)}", f"{beside(print_came, print_wanted)}\n{job.files}")
    return Outcome(place, "as over the file that is cut")


def shown_part(program: Program, numbers: range) -> list[Outcome]:
    return [shown(program, it) for it in numbers]


def shown_cuts() -> list[Outcome]:
    """Whether enough jobs leave records out."""
    count = sum(job.cut() != job.files for job in map(Job, range(COUNT)))
    return [Outcome("ends.py", f"{count} of {COUNT} jobs leave records out", None if count >= LEFT_OUT else ": too few")]


def jobs_of(program: Program) -> Iterable[Callable[[], list[Outcome]]]:
    yield partial(shown_cuts)
    for first in range(0, COUNT, AT_ONCE):
        yield partial(shown_part, program, range(first, first + AT_ONCE))
