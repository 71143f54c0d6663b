"""A line of calls, as it is read."""

import re
from collections.abc import Iterator
from dataclasses import dataclass
from pathlib import Path

from case_file import lines_in
from outcome import Outcome

TEXT = r'"[^"]*"|\|[^|]*\|'
TOKEN = re.compile(rf"{TEXT}|\S+")
GIVEN = ("card", "new_form", "new_symbols")
ESCAPED = {"n": "\n", "f": "\f", "r": "\r", "u": "\x1f", "o": "\xff"}


@dataclass(frozen=True)
class Call:
    """A line of a file: its words, and what it has after ` = `."""

    place: str
    line: str
    words: tuple[str, ...]
    answer: str | None
    given: str = ""  # the card that stands, or what begins the form or the list of names, and where

    def told(self, came: str) -> Outcome:
        if came == self.answer:
            return Outcome(self.place, f"as told: {self.line}")
        return Outcome(self.place, f"OTHERWISE: {self.line}", f"\n--- came\n{came}")


def unread(call: Call) -> Outcome:
    return Outcome(call.place, f"BAD: {call.line}", "\n--- a line that can't be read")


def bare(word: str) -> str:
    """A word, or the text between its quotes or bars."""
    return word[1:-1] if re.fullmatch(TEXT, word) else word


def calls_in(path: Path) -> Iterator[Call]:
    given = ""
    for number, line in enumerate(lines_in(path), 1):
        if not line or line.startswith("#"):
            continue
        said, equals, answer = f"{line} ".partition(" = ")
        words = tuple(bare(it) for it in TOKEN.findall(said))
        if words[0] in GIVEN:
            given = words[1] if words[0] == "card" else f"{' '.join(words)} {number}"
        yield Call(f"{path.name}, line {number}", line, words, answer.strip() if equals else None, given)


def escaped(text: str) -> str:
    return re.sub(r"\\(.)", lambda it: ESCAPED.get(it[1], it[1]), text)
