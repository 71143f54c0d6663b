#!/usr/bin/env python3
"""Lays out what only calls of the library show: the rows that rpg_show_cases does, and what it must print of each.

usage: tests/lay_out.py PROGRAM [FILE.cases ..]

It writes data/all.rows and stdout of crates/rpg_show_cases, from its files of cases and from rows/. PROGRAM is a build of rpg2, which compiles
the sources. If files of cases are named, it only prints their rows. tests/run.py compares what is there with what this lays out, so run it after
a change to a case that calls show. README.md says what a row has.
"""

import re
import sys
import tempfile
from collections.abc import Iterable, Iterator
from dataclasses import dataclass
from functools import cache
from pathlib import Path

from case_file import Run, lines_in, runs_in, text_of
from program import Program

HERE = Path(__file__).resolve().parent
CRATE = HERE.parent / "crates/rpg_show_cases"

ENDS_JOB = re.compile(r"end of job|halt ")
UNLIMITED = "-"

# A line of files.rows: a task, its text, the pieces of each row, what else the device does, and what is told.
FILE_ROW = re.compile(
    r'(?P<task>\w+) "(?P<text>[^"]*)"(?: limit (?P<limit>\d+))?(?: times (?P<repeated>\d+))?(?: pieces (?P<pieces>[\d ]+?))?'
    r"(?: fault (?P<fault>\d+))?(?: interrupts (?P<times>\d+))?"
)


@dataclass(frozen=True)
class Row:
    """What rpg_show_cases is to do, over the object that stands before, and what it must print of it."""

    task: str
    name: str
    told: bytes
    date: str = ""
    input: str = ""
    secondary: str = ""
    devices: str = ""
    object: bytes | None = None

    def line(self) -> str:
        columns = (self.task, self.name, self.date, self.input, self.secondary, self.devices)
        return "\t".join(columns)


def records_in(content: bytes) -> list[bytes]:
    """The records of an input: its lines, without the carriage return before a line feed."""
    lines = content.split(b"\n")
    last = lines.pop()
    return [it.removesuffix(b"\r") for it in lines] + ([last] if last else [])


def listed(content: bytes) -> str:
    return "".join(f",{it.hex()}" for it in records_in(content))


def turns(run: Run) -> dict[str, str]:
    """The records of each cycle of a job: one for each primary record, one after the last, and two more, with the last record and with none."""
    files = {"input": records_in(run.input), "secondary": records_in(run.secondary)}
    count = len(files["input"])
    places = [*range(count + 1), max(count - 1, 0), count + 2]
    return {name: ",".join(records[it].hex() if it < len(records) else "-" for it in places) for name, records in files.items()}


def outputs(run: Run) -> bytes:
    return b"%s\nprint\n%s\ndisk\n%s" % (run.line.encode("latin-1"), run.print, run.disk)


def devices(said: Iterable[str]) -> str:
    """The pieces, the fault and the interrupts of the readers of both inputs and the writers of the print and the disk file."""
    pieces, faults, times = [UNLIMITED] * 4, [UNLIMITED] * 4, ["0"] * 4
    places = {"input": 0, "secondary": 1, "print": 2, "disk": 3}
    interrupted = {"reads": (0, 1), "writes": (2, 3), "stores": (3,)}
    for word, _, value in (it.partition(" ") for it in said):
        if word == "pieces":
            pieces = [value] * 4
        elif word == "full":
            pieces[places[value or "print"]] = "0"
        elif word in places:
            faults[places[word]] = value
        else:
            for place in interrupted[word]:
                times[place] = value
    return "/".join(map(" ".join, zip(pieces, faults, times)))


def swept(line: str) -> bytes:
    """The counts of a sweep in the order of the kinds: the codes, the rules by their numbers, the ends of jobs."""
    *counts, total = line.split(", ")
    by_kind = sorted(counts, key=lambda it: (it[0] not in "BV", it[0], int(re.search(r"\d+", it)[0]) if it[0] in "BV" else 0, it))
    return ", ".join([*by_kind, total]).encode()


def cut(run: Run, content: bytes) -> Iterator[Row]:
    """An object cut to each length: its name is cut first, and else a number."""
    for length in range(len(content)):
        told = b"B1 at 0" if length < 6 else b"B3 at %d" % length
        yield Row("spell", f"{run.name}, the first {length} bytes", told, object=content[:length])


def rows_of(run: Run, content: bytes) -> Iterator[Row]:
    """The rows of a run over an object."""
    told = run.line.encode("latin-1")
    given = {"date": run.date, "object": content}
    streams = {"input": run.input.hex(), "secondary": run.secondary.hex()}
    match run.question:
        case "spelled":
            yield Row("spell", run.name, told, **given)
        case "sweep":
            yield Row("sweep", run.name, swept(run.line), **streams, **given)
        case "damage":
            yield from cut(run, content)
            yield Row("change", run.name, told.partition(b", ")[2], **given)
        case "values":
            yield Row("values", run.name, told, **given)
        case "cycles":
            yield Row("cycles", run.name, told if run.line == "bad date" else outputs(run), **turns(run), **given)
        case "answer" if run.devices:
            yield Row("devices", run.name, outputs(run), **streams, devices=devices(run.devices), **given)
        case "answer" if run.is_run and ENDS_JOB.match(run.line):
            lists = {"input": listed(run.input), "secondary": listed(run.secondary)}
            yield Row("area", run.name, outputs(run), **lists, **given)
            yield Row("list", f"{run.name}, by the other store", outputs(run), **lists, **given)


@cache
def compiled(program: Program, source: bytes, allowance: int) -> bytes:
    """The object that a source is compiled to; none if it has a fault."""
    with tempfile.TemporaryDirectory() as folder:
        path = Path(folder)
        (path / "source").write_bytes(source)
        program.answer(["compile", "source", "object", "--allowance", str(allowance)], path)
        made = path / "object"
        return made.read_bytes() if made.exists() else b""


def rows_in(program: Program, path: Path) -> Iterator[Row]:
    """The rows of a file of cases."""
    for run in runs_in(path):
        if run.unknown:
            yield Row(run.unknown, run.name, b"a mark that isn't known")
        else:
            yield from rows_of(run, compiled(program, run.source, run.allowance) if run.object is None else run.object)


def unescaped(text: str) -> bytes:
    """The bytes of a text as a case has it, with `\\n` for a line feed."""
    return text_of([text.replace("\\n", "\n") + "\\"])


def rows_of_line(call: str, told: str) -> Iterator[Row]:
    """A row for each number of pieces of a call."""
    said = FILE_ROW.fullmatch(call)
    columns = {"input": unescaped(said["text"]).hex(), "date": said["limit"] or "", "secondary": said["repeated"] or ""}
    for pieces in (said["pieces"] or UNLIMITED).split():
        name = call.replace(f" pieces {said['pieces']}", f" pieces {pieces}")
        device = f"{pieces} {said['fault'] or UNLIMITED} {said['times'] or 0}"
        yield Row(said["task"], name, unescaped(told), devices=device, **columns)


def file_rows(path: Path) -> Iterator[Row]:
    """The rows of single calls of rpg_files."""
    for line in lines_in(path):
        if line and not line.startswith("#"):
            yield from rows_of_line(*line.rsplit(" = ", 1))


def text_of_rows(rows: Iterable[Row]) -> str:
    """The lines of rows, and of each object before the first row over it."""
    lines, last = [], None
    for row in rows:
        if row.object is not None and row.object != last:
            lines.append(f"object\t{row.object.hex()}")
            last = row.object
        lines.append(row.line())
    return "".join(f"{it}\n" for it in lines)


def printed(rows: Iterable[Row]) -> str:
    return "".join(f"{it.name}: {it.told.decode('latin-1')}\n" for it in rows)


def laid_out(program: Program) -> dict[str, str]:
    """The files of rpg_show_cases that come of cases and rows: what each has."""
    rows = list(file_rows(HERE / "rows/files.rows"))
    for path in sorted((CRATE / "data").glob("*.cases")):
        rows += rows_in(program, path)
    calls = (HERE / "rows/calls.told").read_text(encoding="ascii")
    return {"data/all.rows": text_of_rows(rows), "stdout": printed(rows) + calls}


def main(words: list[str]) -> None:
    if not words:
        sys.exit(__doc__)
    program = Program(Path(words[0]).resolve(), "rpg2")
    if words[1:]:
        print(text_of_rows(row for it in words[1:] for row in rows_in(program, Path(it))), end="")
        return
    for name, text in laid_out(program).items():
        (CRATE / name).write_text(text, encoding="ascii")


if __name__ == "__main__":
    main(sys.argv[1:])
