"""The runs of cases, each by rpg2 over files."""

import re
from dataclasses import dataclass
from pathlib import Path

from case_file import Run
from outcome import Outcome
from program import Program, status_of

# What only calls of the library show: the program rpg_show_cases does these.
OF_THE_LIBRARY = {"sweep", "cycles", "damage", "values"}

NO_OBJECT = re.compile(r"refused: (B\d at \d+)")


@dataclass
class Told:
    """The result of a run, as far as it is compared."""

    line: str
    status: int
    errors: str
    print: bytes = b""
    disk: bytes = b""
    object: bytes = b""


def is_for_rpg2(run: Run) -> bool:
    """Whether a run is shown by the command: no device of its own, and no call of the library."""
    return run.question not in OF_THE_LIBRARY and not run.devices


def written(path: Path) -> bytes:
    """The contents of a file that a run may have made."""
    return path.read_bytes() if path.exists() else b""


class Runner:
    """Does a run in a folder of its own, with a build of the program."""

    def __init__(self, program: Program, folder: Path, run: Run):
        self.program, self.folder, self.run = program, folder, run

    def file(self, name: str, content: bytes) -> None:
        (self.folder / name).write_bytes(content)

    def command(self, *words: str) -> Told:
        return Told(*self.program.answer(list(words), self.folder))

    def compile(self) -> Told:
        """Compiles the source. One with a fault makes no object."""
        self.file("source", self.run.source)
        told = self.command("compile", "source", "object", "--allowance", str(self.run.allowance))
        told.object = written(self.folder / "object")
        if (told.line == "compiled") != (self.folder / "object").exists():
            told.line += ", where an object is made" if told.object else ", where no object is made"
        return told

    def job(self) -> Told:
        """Runs the object over the inputs."""
        self.file("input", self.run.input)
        self.file("secondary", self.run.secondary)
        words = [f"--date={self.run.date}", "--secondary", "secondary", "--disk", "disk"]
        words += [] if self.run.most is None else ["--most", self.run.most]
        told = self.command("run", "object", "input", "print", *words)
        told.print, told.disk = written(self.folder / "print"), written(self.folder / "disk")
        return told

    def spelled(self) -> Told:
        """Whether the bytes are an object program, and if not, where they fail; the rules of a program aren't tested."""
        told = self.command("verify", "object")
        fault = NO_OBJECT.fullmatch(told.line)
        is_answer = status_of(told.line) == told.status
        told.line = fault[1] if fault else "again" if is_answer and told.status in (0, 4) else told.line
        return told

    def told(self) -> Told:
        run, made = self.run, b""
        if run.source is not None:
            told = self.compile()
            if told.line != "compiled" or run.question == "answer" and not run.is_run:
                return told
            made = told.object
        else:
            self.file("object", run.object)
        does = {"verify": lambda: self.command("verify", "object"), "answer": self.job, "spelled": self.spelled}
        told = does[run.question]()
        told.object = made
        return told


def first_line(one: bytes, other: bytes) -> int:
    """The number of the line in which two texts differ first."""
    same = next((i for i, (a, b) in enumerate(zip(one, other)) if a != b), min(len(one), len(other)))
    return one[:same].count(b"\n") + 1


def beside(told: bytes, wanted: bytes) -> str:
    return f"\n--- wanted\n{wanted.decode('latin-1')}\n--- came\n{told.decode('latin-1')}"


def difference(run: Run, told: Told) -> tuple[str, str] | None:
    """The first difference from what a run expects, in words, and both sides of it."""
    if told.line != run.line:
        return f"{told.line}, and not {run.line}", f"\n{told.errors}" if told.errors else ""
    for part in ("print", "disk"):
        came, wanted = getattr(told, part), getattr(run, part)
        if came != wanted:
            return f"{part}, line {first_line(came, wanted)}", beside(came, wanted)
    if run.compiled is not None and told.object != run.compiled:
        return "other bytes of the object", f"\n--- wanted\n{run.compiled.hex()}\n--- came\n{told.object.hex()}"
    if run.question != "spelled" and told.status != status_of(run.line):
        return f"status {told.status} of this line", f"\n{told.errors}"
    return None


def show(program: Program, folder: Path, run: Run) -> Outcome:
    """Does a run, and reports its result; a failure shows both sides as well."""
    if run.unknown is not None:
        return Outcome(run.place, f"BAD: {run.name}: a mark that isn't known", f"--- {run.unknown}")
    found = difference(run, Runner(program, folder, run).told())
    if found is None:
        return Outcome(run.place, f"ok: {run.name}: {run.line}")
    return Outcome(run.place, f"DIFFERS: {run.name}: {found[0]}", found[1])
