#!/usr/bin/env python3
"""Writes the first part of docs/MESSAGES.md from what `rpg2 explain` prints: all pages, but what the pages of a family share stands once.

usage: build/messages.py [PROGRAM]

PROGRAM is a build of rpg2, by default crates/rpg2/out/rpg2. The session telling compares the page with what each build gives, so run this
after a change to a page of a code.

A code is a list there: each item begins with its label, such as Breaks it, and has its cards right below, indented.
"""

import re
import subprocess
import sys
import textwrap
from collections import Counter
from pathlib import Path

TOP = Path(__file__).resolve().parent.parent
PAGE = TOP / "docs/MESSAGES.md"
SECOND_PART = "# The rules of a source"
WIDTH = 100
KEPT = "\0"

CODE = re.compile(r"## ([^:\n]+):")
# a text, the cards of an item, or the items of a list, with blank lines around it
BLOCK = re.compile(r"^```text\n.*?^```$|^\S.*?(?=\n\n|\n*\Z)", re.MULTILINE | re.DOTALL)
LABEL = re.compile(r"(Breaks it|Keeps it|Before|After):")
# blanks at which no line may end: those in code, and those before what would begin a list or a heading
IN_CODE = re.compile(r"`[^`]+`")
BEFORE_MARK = re.compile(r"\s(?=(?:\d+[.)]|[-+*#>]+)\s)")


class Code:
    """The page of a code: its heading, what is given, its items, what to do, and what follows."""

    def __init__(self, explained: str) -> None:
        heading, *blocks = BLOCK.findall(explained)
        self.heading = heading.removeprefix("## ")
        self.name = CODE.match(heading)[1]
        self.given = flat(blocks.pop(0)) if blocks[0].startswith("In ") else ""
        self.then = flat(blocks.pop().removeprefix("Then: "))
        self.to_do = flat(blocks.pop().removeprefix("What to do: "))
        self.items = items_of(blocks)

    def family(self) -> str:
        return re.match(r"[A-Za-z]+", self.name)[0]

    def link(self) -> str:
        slug = re.sub(r"[^\w -]", "", self.heading.lower()).replace(" ", "-")
        return f"[{self.name}](#{slug})"


class Family:
    """The codes of a family, and what they share. What to do is shared if several codes have the same."""

    def __init__(self, codes: list[Code]) -> None:
        self.codes = codes
        givens, thens = {it.given for it in codes} - {""}, {it.then for it in codes}
        if len(givens) > 1 or len(thens) > 1:
            sys.exit(f"the pages of {codes[0].family()} share neither what is given nor what follows")
        self.given, self.then = "".join(givens), thens.pop()
        to_do, times = Counter(it.to_do for it in codes).most_common(1)[0]
        self.to_do = to_do if times > 1 else ""

    def row(self) -> str:
        return f"| {', '.join(it.link() for it in self.codes)} | {self.given} | {self.to_do} | {self.then} |\n"

    def section(self, code: Code) -> str:
        own = [] if code.to_do == self.to_do else [item_of("What to do", code.to_do)]
        return f"## {code.heading}\n\n" + "\n".join(code.items + own) + "\n"


def flat(text: str) -> str:
    return " ".join(text.split())


def items_of(blocks: list[str]) -> list[str]:
    """The items of a page, each with its label and its cards."""
    items: list[str] = []
    label, is_first = "", True
    for block in blocks:
        if found := LABEL.fullmatch(block):
            label, is_first = found[1], True
            continue
        if block.startswith("- "):
            items += [item_of(label, flat(it)) for it in re.split(r"^- ", block, flags=re.MULTILINE)[1:]]
        else:
            items += [item_of(label, "")] if is_first else []
            items[-1] += "\n" + textwrap.indent(block, "  ")
        is_first = False
    return items


def item_of(label: str, text: str) -> str:
    kept = IN_CODE.sub(lambda it: it[0].replace(" ", KEPT), BEFORE_MARK.sub(KEPT, f"**{label}:** {text}"))
    lines = textwrap.wrap(kept, WIDTH, initial_indent="- ", subsequent_indent="  ", break_long_words=False, break_on_hyphens=False)
    return "\n".join(lines).replace(KEPT, " ")


def page_of(explained: str) -> str:
    """The first part of the page, from what `rpg2 explain` prints."""
    title, *pages = re.split(r"(?m)^(?=## )", explained)
    families: dict[str, list[Code]] = {}
    for code in map(Code, pages):
        families.setdefault(code.family(), []).append(code)
    shared = [Family(it) for it in families.values()]
    table = "| Code | Given | What to do, unless it is below | Then |\n|---|---|---|---|\n" + "".join(it.row() for it in shared)
    sections = [it.section(code) for it in shared for code in it.codes]
    return title.replace("the first of the line", "its first") + table + "\n" + "\n".join(sections)


def main() -> None:
    program = Path(sys.argv[1]).resolve() if len(sys.argv) > 1 else TOP / "crates/rpg2/out/rpg2"
    explained = subprocess.run(["rpg2", "explain"], executable=program, capture_output=True, text=True, check=True).stdout
    _, _, second = PAGE.read_text(encoding="utf-8").partition(f"\n{SECOND_PART}")
    PAGE.write_text(f"{page_of(explained)}\n{SECOND_PART}{second}", encoding="utf-8")


if __name__ == "__main__":
    main()
