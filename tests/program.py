"""rpg2 as a user runs it: its words, its two streams, its exit status."""

import os
import re
import resource
import signal
import subprocess
from dataclasses import dataclass
from pathlib import Path
from typing import IO

SECONDS = 60

# The exit status of each line, as docs/COMMANDS.md has them.
STATUSES = [
    (0, r"compiled|no fault|/\*|changes \d+|accepted, bound \d+|end of job, cycles \d+, steps \d+ of \d+"),
    (1, r"input failed|output failed|file too large|no memory"),
    (2, r"bad date|date wanted|disk file wanted|secondary file wanted|no such code"),
    (3, r"card \d+: [SFWA]\d+|new card \d+: [SF]\d+|not the object's source|line \d+: no card"),
    (4, r"refused: (B\d at \d+|V\d+ row \d+|bound \d+)"),
    (5, r"halt [1-8], cycles \d+, steps \d+ of \d+|record \d+: not sorted"),
]


@dataclass(frozen=True)
class Answer:
    """The result of a command: what it wrote on both streams, in its order, and its exit status; below 0 the signal that ended it."""

    text: bytes
    status: int


@dataclass(frozen=True)
class Limits:
    """How many bytes a file takes that is written, and how much memory there is; None for any. And which standard streams are closed."""

    file: int | None = None
    memory: int | None = None
    closed: tuple[int, ...] = ()

    def keep(self) -> None:
        """Keeps the limits from here on. A write past a file's end fails, and no signal comes of it."""
        for stream in self.closed:
            os.close(stream)
        if self.file is not None:
            signal.signal(signal.SIGXFSZ, signal.SIG_IGN)
            resource.setrlimit(resource.RLIMIT_FSIZE, (self.file, self.file))
        if self.memory is not None:
            resource.setrlimit(resource.RLIMIT_AS, (self.memory, self.memory))

    def is_any(self) -> bool:
        return self.file is not None or self.memory is not None or bool(self.closed)


@dataclass(frozen=True)
class Program:
    """A build of rpg2."""

    path: Path
    name: str

    def run(
        self,
        words: list[str | bytes],
        folder: Path,
        given: IO[bytes] | int = subprocess.DEVNULL,
        out: IO[bytes] | int = subprocess.PIPE,
        limits: Limits = Limits(),
    ) -> Answer:
        """Runs the program with these arguments in a folder. If `out` is a pipe both streams go there; else only standard error is kept."""
        is_piped = out == subprocess.PIPE
        ended = subprocess.run(
            ["rpg2", *words],
            executable=self.path,
            cwd=folder,
            stdin=given,
            stdout=out,
            stderr=subprocess.STDOUT if is_piped else subprocess.PIPE,
            preexec_fn=limits.keep if limits.is_any() else None,
            timeout=SECONDS,
            check=False,
        )
        return Answer(ended.stdout if is_piped else ended.stderr, ended.returncode)

    def answer(self, words: list[str | bytes], folder: Path) -> tuple[str, int, str]:
        """The line of a command, its status, and its standard error."""
        ended = subprocess.run(
            ["rpg2", *words],
            executable=self.path,
            cwd=folder,
            stdin=subprocess.DEVNULL,
            capture_output=True,
            timeout=SECONDS,
            check=False,
        )
        said = ended.stdout.decode("latin-1")
        return said.removesuffix("\n"), ended.returncode, ended.stderr.decode("latin-1")


def status_of(line: str) -> int | None:
    """The status that a line has; None where no command gives such a line."""
    return next((status for status, lines in STATUSES if re.fullmatch(lines, line)), None)
