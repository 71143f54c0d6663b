"""Jobs of old decks as shops wrote them: `rpg2 records` and `rpg2 fit` make decks that rpg2 runs, and these write what was worked out apart.

A folder has a deck, its data, and a file `job` with a line for each step:

    rpg2 WORD ..               a command, which must succeed
    rejected rpg2 WORD ..      a command that rejects a card
    same FILE EXPECTED         two files with the same bytes
    records LETTER N EXPECTED  the first N columns of the disk file's records that begin with a letter, without that
"""

import shutil
import tempfile
from collections.abc import Iterable
from functools import partial
from pathlib import Path

from outcome import Outcome
from program import Program

REJECTED = 3


def step_fault(program: Program, words: list[str], folder: Path) -> str | None:
    """How a step fails."""
    match words:
        case ["rpg2" | "rejected", *rest]:
            wanted = REJECTED if words[0] == "rejected" else 0
            line, status, errors = program.answer(rest[1:] if wanted else rest, folder)
            return None if status == wanted else f"{line}, status {status}\n{errors}"
        case ["same", name, expected]:
            came = (folder / name).read_bytes()
        case ["records", letter, length, expected]:
            lines = (folder / "disk").read_bytes().split(b"\n")
            came = b"".join(it[1 : int(length) + 1] + b"\n" for it in lines if it[:1] == letter.encode())
        case _:
            return "no such step"
    return None if came == (folder / expected).read_bytes() else came.decode("latin-1")


def show(program: Program, folder: Path) -> list[Outcome]:
    outcomes = []
    with tempfile.TemporaryDirectory() as name:
        place = Path(name, folder.name)
        shutil.copytree(folder, place)
        for number, line in enumerate((folder / "job").read_text(encoding="utf-8").splitlines(), 1):
            fault = step_fault(program, line.split(), place)
            outcomes.append(Outcome(f"shops/{folder.name}/job:{number}", line, fault and f"\n{fault}"))
            if fault:
                break
    return outcomes


def jobs_of(program: Program, folder: Path) -> Iterable[partial]:
    for place in sorted(it.parent for it in folder.glob("*/job")):
        yield partial(show, program, place)
