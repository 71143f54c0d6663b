"""Old decks: what `rpg2 fit` makes of each, and what it reports of their cards. Of decks by chance: that the new deck does the same."""

import re
import tempfile
from collections.abc import Iterable
from functools import partial
from pathlib import Path

import fit
import sentences
from case_file import lines_in
from outcome import Outcome
from program import Program

# The words that decks are rewritten with, if NAME.words has no others.
WORDS = "--table TABF=table --switches 10000000"

AT_ONCE = 10


def reported(errors: str) -> str:
    """The sentences on standard error, each with its card: `CARD: CODE: SENTENCE`."""
    lines = [re.fullmatch(r"deck:(\d+):\d+: (?:note|error): (.*) \[(A\d+)\]", line) for line in errors.split("\n")]
    return "".join(f"{it[1]}: {it[3]}: {it[2]}\n" for it in lines if it)


def words_of(path: Path) -> list[str]:
    own = path.with_suffix(".words")
    return (own.read_text(encoding="utf-8") if own.exists() else WORDS).split()


def answer_of(told: str, deck: bytes, new: bytes | None) -> tuple[str, int]:
    """The line and the status that a deck's sentences stand for."""
    if new is None:
        card, code = re.match(r"(\d+): (A\d+): ", told).groups()
        return f"card {card}: {code}", 3
    assert told or new == deck
    return f"changes {len(told.splitlines())}", 0


def show(program: Program, path: Path) -> list[Outcome]:
    """Rewrites a deck, and compares the new one, the sentences, the answer and the status. The new deck, rewritten once more, stays as it is."""
    told = path.with_suffix(".told").read_text(encoding="utf-8")
    new = path.with_suffix(".new").read_bytes() if path.with_suffix(".new").exists() else None
    with tempfile.TemporaryDirectory() as name:
        folder = Path(name)
        (folder / "deck").write_bytes(path.read_bytes())
        table = (path.parent / "table").read_bytes()
        (folder / "table").write_bytes(table)
        (folder / "record").write_bytes(table.splitlines(keepends=True)[0])
        line, status, errors = program.answer(["fit", "deck", "new", *words_of(path)], folder)
        made = (folder / "new").read_bytes() if (folder / "new").exists() else None
        faults = []
        if (line, status) != answer_of(told, path.read_bytes(), new):
            faults.append(f"--- came\n{line}, status {status}")
        if reported(errors) != told:
            faults.append(f"--- wanted\n{told}--- came\n{errors}")
        if made != new:
            faults.append(f"--- new\n{(made or b'none').decode('latin-1')}")
        if made is not None:
            again, _, _ = program.answer(["fit", "new", "newer", *words_of(path)], folder)
            if again != "changes 0" or (folder / "newer").read_bytes() != made:
                faults.append(f"--- once more\n{again}")
    return [Outcome(str(path.relative_to(path.parent.parent)), f"fit {path.stem}", "\n" + "\n".join(faults) if faults else None)]


def shown_by_chance(program: Program, decks: list[tuple[int, str]]) -> list[Outcome]:
    """Decks by chance, each with the answer that is expected of fit: bench/fit.py compares what the old and the new deck do."""
    return [compared(program, seed, answer) for seed, answer in decks]


def compared(program: Program, seed: int, answer: str) -> Outcome:
    result = fit.compared(str(program.path), seed)
    fault = result.how if result.kind == "differs" else f"--- came\n{result.answer}" if result.answer != answer else None
    return Outcome(f"fit/chance.answers:{seed}", f"old deck {seed}: {answer}", fault and f"\n{fault}")


def sentences_shown() -> list[Outcome]:
    """Each sentence of the rules stands in a case or a session."""
    missing = "".join(f"\n{it}" for it in sentences.unshown())
    return [Outcome("fit", "each sentence of a rule is shown", missing or None)]


def jobs_of(program: Program, folder: Path) -> Iterable[partial]:
    yield partial(sentences_shown)
    for path in sorted(folder.glob("*.deck")):
        yield partial(show, program, path)
    decks = list(enumerate(lines_in(folder / "chance.answers"), 1))
    for first in range(0, len(decks), AT_ONCE):
        yield partial(shown_by_chance, program, decks[first : first + AT_ONCE])
