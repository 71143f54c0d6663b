"""The counts in the pages: what each number in a sentence is a count of, and how it is counted."""

import re
from collections.abc import Callable, Iterator
from functools import cache
from pathlib import Path

import call
import case_runs
from case_file import Run, lines_in, runs_in

HERE = Path(__file__).resolve().parent
TOP = HERE.parent
WORDS = "none one two three four five six seven eight nine ten eleven twelve thirteen fourteen fifteen sixteen".split()
ABOVE = re.compile(r"^\| (rpg_\w+) \| (\d+) \|$", re.MULTILINE)


@cache
def crates() -> dict[str, set[str]]:
    """Each crate with those that it names."""
    lines = [it.partition(":") for it in lines_in(TOP / "crates.txt") if it and not it.startswith("#")]
    return {name: set(named.split()) for name, _, named in lines}


def above(crate: str) -> int:
    """How many crates name this one, or one that is above it."""
    found: set[str] = set()
    while more := {name for name, named in crates().items() if named & (found | {crate})} - found:
        found |= more
    return len(found)


@cache
def runs() -> list[Run]:
    folders = [HERE / "cases", TOP / "crates/rpg_show_cases/data"]
    return [it for folder in folders for path in sorted(folder.glob("*.cases")) for it in runs_in(path) if case_runs.is_for_rpg2(it)]


def asked(question: str) -> int:
    return sum(it.question == question for it in runs())


def of_rules() -> int:
    """The objects written by hand that are verified, a rule of the verifier each."""
    return sum(it.question == "verify" and it.place.startswith(("rules.", "matches.")) for it in runs())


def lines_of(pattern: str, start: str = "") -> int:
    return sum(it.startswith(start) for path in HERE.glob(pattern) for it in lines_in(path))


def calls() -> int:
    return sum(len(list(call.calls_in(it))) for it in (HERE / "calls").glob("*.calls") if not it.with_suffix(".told").exists())


def edits() -> int:
    return len(list(TOP.glob("crates/*/refused/*.edit")))


def reports() -> int:
    """The examples that are one report, from a deck of today."""
    return sum((it / f"{it.name}.rpg").exists() and not (it / f"{it.name}.old.rpg").exists() for it in (TOP / "examples").iterdir())


COUNTS: list[tuple[str, Callable[[], int]]] = [
    (r"\b(?:There are|of) (\d+) crates", lambda: len(crates())),
    (r"Crates above it, of (\d+)", lambda: len(crates())),
    (r"\b(?:has|There are|tries all|all) (\d+)(?: wrong bodies| edits|, before a version)", edits),
    (r"\bthe (\d+)\s(?:that tests/gate\.edits|for\sguarantees)", lambda: sum(bool(it) and it[0] != "#" for it in lines_in(HERE / "gate.edits"))),
    (r"\b(\d[\d,]*) runs of cases", lambda: len(runs()) - asked("spelled") - of_rules()),
    (r"\b(\d[\d,]*) objects(?:,| that are read)", lambda: asked("spelled")),
    (r"\b(\d[\d,]*) objects written by hand (?:that )?are verified", of_rules),
    (r"\b(\d[\d,]*) more cases", lambda: asked("verify") - of_rules()),
    (r"\b(\d[\d,]*) commands\b", lambda: lines_of("sessions/*.session", "$ ")),
    (r"\b(\d[\d,]*) lines of calls", calls),
    (r"\b(\d[\d,]*) PDFs", lambda: lines_of("papers.sums")),
    (r"has (\w+) reports, an old deck", reports),
]


def number_of(word: str) -> int:
    return WORDS.index(word) if word in WORDS else int(word.replace(",", ""))


def counts_of(path: Path, text: str) -> Iterator[tuple[str, str | None]]:
    """Each count in a page, with what is wrong with it."""
    flat = " ".join(text.split())
    for pattern, count in COUNTS:
        for found in re.finditer(pattern, flat):
            yield f"{path}: {found[0]}", None if number_of(found[1]) == count() else f"there are {count()}"
    for crate, users in ABOVE.findall(text) if path.name == "CONTRIBUTING.md" else []:
        yield f"{path}: {crate} {users}", None if int(users) == above(crate) else f"there are {above(crate)}"
