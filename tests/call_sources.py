"""The sources that lines of calls stand for, and what a build of rpg2 says of them."""

import re
from collections.abc import Iterable
from pathlib import Path

from program import Program

DATE = "010576"


def card(sheet: str, **texts: str) -> str:
    """A card with texts from columns on: `card("C", _28="MOVE")`."""
    line = " " * 5 + sheet
    for column, text in texts.items():
        line = line.ljust(int(column[1:]) - 1)[: int(column[1:]) - 1] + text + line[int(column[1:]) - 1 + len(text) :]
    return line


INPUT = card("F", _7="IN", _15="IP", _19="F", _24="  80", _40="DISK")
PRINT = card("F", _7="PRINT", _15="O", _19="F", _24=" 132", _40="PRINTER")
TYPE = card("I", _7="IN", _15="AA")
LINE = card("O", _7="PRINT", _15="D", _18="1", _23=" 01")
MOVE = card("C", _28="MOVE", _43="RESULT")


def with_text(line: str, column: int, text: str) -> str:
    """A card of 80 columns with a text from a column on."""
    line = line.ljust(80)
    return line[: column - 1] + text + line[column - 1 + len(text) :]


class Desk:
    """A folder in which a build of the program is given a source at a time."""

    def __init__(self, program: Program, folder: Path):
        self.program, self.folder = program, folder

    def give(self, source: Iterable[str]) -> None:
        self.put("source", "".join(it + "\n" for it in source))

    def put(self, name: str, text: str) -> None:
        (self.folder / name).write_bytes(text.encode("latin-1"))

    def written(self, name: str) -> str:
        path = self.folder / name
        return path.read_bytes().decode("latin-1") if path.exists() else ""

    def asked(self, *words: str) -> tuple[str, str]:
        """What a command says on standard output and on standard error."""
        out, _, errors = self.program.answer(list(words), self.folder)
        return out + "\n", errors

    def listing(self, source: Iterable[str]) -> str:
        self.give(source)
        return self.asked("list", "source")[0]

    def shown(self, source: Iterable[str]) -> str:
        """What `rpg2 show` says of the object of a source, with its names; nothing where the source is refused."""
        self.give(source)
        if self.asked("compile", "source", "object")[0] != "compiled\n":
            return ""
        return self.asked("show", "object", "--source", "source")[0]

    def print_of(self, source: Iterable[str], records: Iterable[str]) -> list[str]:
        """The lines that a source prints over records; where it is refused, what is said of it."""
        self.give(source)
        line, errors = self.asked("compile", "source", "object")
        if line != "compiled\n":
            return [line + errors]
        self.put("input", "".join(it + "\n" for it in records))
        line, errors = self.asked("run", "object", "input", "print", "--date", DATE, "--disk", "disk")
        if not line.startswith("end of job"):
            return [line + errors]
        return re.split("[\n\f]", self.written("print"))


def row_of(listing: str, table: str, first: str) -> str:
    """The row of a table of a listing that begins with this word."""
    rows = listing.partition(f"\n{table}\n")[2].partition("\n\n")[0]
    return next((it for it in rows.splitlines() if it.startswith(f"  {first} ")), "")
