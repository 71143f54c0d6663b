#!/usr/bin/env python3
"""Checks the pages: links and the sections that they name, names of files, command lines, counts, and how long pages are.

usage, at the top of the repository: tests/pages.py

It prints a line for each failure, and last `N passed, M failed`. What `make install` puts in its place links only to what is there too.
"""

import os
import re
import sys
from pathlib import Path

from counted import counts_of

INSTALLED = ("README.md", "CHANGELOG.md", "CONTRIBUTING.md", "docs", "examples")
PAGES = [Path(it) for it in INSTALLED if it.endswith(".md")] + [it for part in ("docs", "examples") for it in sorted(Path(part).rglob("*.md"))]
OTHERS = [Path("tests/README.md"), Path("install/README.md"), *sorted(Path("crates").glob("*/README.md"))]
LONG = {"MESSAGES.md": 1900}
FENCED = re.compile(r"^ *```.*?^ *```$", re.MULTILINE | re.DOTALL)
LINK = re.compile(r"\[[^\]]+\]\(([^)#\s]*)(?:#([^)\s]+))?\)")
HEADING = re.compile(r"^#+ (.+)$", re.MULTILINE)
# names of files by their paths from the top, and of pages outside code
FILE = re.compile(r"(?<![\w/.<-])((?:docs|tests|bench|build|install|examples|crates)/[\w./-]*\w)")
PAGE = re.compile(r"(?<![\w/.`\[-])((?:docs/(?:\w+/)?)?[A-Z_]{4,}\.md)\b")
COMMAND = re.compile(r"^(?:    |\$ )(?:.*?\| ?)?rpg2 ([a-z]+)\b([^|#\n]*(?:\n {6,}[\[-][^\n]*)*)|`rpg2 ([a-z]+)\b([^`|]*)`", re.MULTILINE)
OPTION = re.compile(r"(?<![\w-])--?[a-z][a-z-]*")
MAKE = re.compile(r"(?:`|^    )(?:sudo )?make ([a-z]+)\b", re.MULTILINE)


def slugs(path):
    """The anchors of a page's headings, as forges and browsers make them."""
    headings = HEADING.findall(FENCED.sub("", path.read_text(encoding="utf-8")))
    return {re.sub(r"[^\w -]", "", it.lower()).replace(" ", "-") for it in headings}


def options():
    """The options of each command, by the manual page."""
    page = re.sub(r"\\f[BRI]", " ", Path("install/man/rpg2.1").read_text(encoding="utf-8")).replace("\\-", "-")
    parts = re.split(r'^\.SS "rpg2 (\w+).*$', page, flags=re.MULTILINE)[1:]
    return {name: set(OPTION.findall(text)) | {"--help", "-h"} for name, text in zip(parts[::2], parts[1::2], strict=True)}


def links_of(path, text):
    """Each link with what is wrong with it."""
    for found in LINK.finditer(text):
        target = Path(os.path.normpath(path.parent / found[1])) if found[1] else path
        where = f"{path}: {' '.join(found[0].split())}"
        if found[1].startswith("http"):
            yield where, None
        elif not target.exists():
            yield where, "no such file"
        elif path in PAGES and target.parts[0] not in INSTALLED:
            yield where, "isn't installed"
        elif found[2] and found[2] not in slugs(target):
            yield where, "no such section"
        else:
            yield where, None


def running(path, text):
    """The text in which a page's name is a link: not headings, tables for makers, and what rpg2 prints."""
    text = text[text.find("\n# The rules of a source") :] if path.name == "MESSAGES.md" else text
    return re.sub(r"^[#|].*" if "develop" in path.parts else r"^#.*", "", text, flags=re.MULTILINE)


def names_of(path, text):
    """Each name of a file, and each name of a page that is no link."""
    for name in FILE.findall(LINK.sub("", text)):
        is_pattern = "NAME" in name or ".." in name or "/out/" in name
        yield f"{path}: {name}", None if is_pattern or Path(name).exists() or (path.parent / name).exists() else "no such file"
    if path in PAGES:
        for name in PAGE.findall(LINK.sub("", running(path, text))):
            yield f"{path}: {name}", "isn't a link"


def commands_of(path, text, known, targets):
    """Each command line: whether the command and its options exist, and so the targets of make."""
    for found in COMMAND.finditer(text):
        name, words = found[1] or found[3], (found[2] or found[4] or "").rstrip()
        lacks = sorted(set(OPTION.findall(words)) - known.get(name, set())) if name in known else [name]
        yield f"{path}: rpg2 {name}{words}", f"no {', '.join(lacks)}" if lacks and name != "help" else None
    for target in MAKE.findall(text):
        yield f"{path}: make {target}", None if target in targets else "no such target"


def shown_by(path, whole):
    """Each line of cards and print that the tutorial shows: whether it is an example's."""
    if path.name == "TUTORIAL.md":
        lines = {it.rstrip() for part in ("*.rpg", "*.expected") for file in Path("examples").glob(f"*/{part}") for it in file.open(encoding="utf-8")}
        for line in "\n".join(it.strip("`") for it in FENCED.findall(whole)).replace("text\n", "").splitlines():
            yield f"{path}: {line}", None if line in lines else "is in no example"


def main():
    targets = set(re.findall(r"^([a-z]+):", Path("Makefile").read_text(encoding="utf-8"), re.MULTILINE))
    known, passed, failed = options(), 0, 0
    for path in PAGES + OTHERS:
        whole = path.read_text(encoding="utf-8")
        text = FENCED.sub("", whole)
        found = [*links_of(path, text), *names_of(path, text), *commands_of(path, whole, known, targets), *shown_by(path, whole), *counts_of(path, text)]
        lines = whole.count("\n")
        found.append((f"{path}: {lines} lines", "too long" if lines >= LONG.get(path.name, 600) else None))
        for what, wrong in found:
            passed, failed = passed + (not wrong), failed + bool(wrong)
            if wrong:
                print(f"{what}: {wrong}")
    print(f"{passed} passed, {failed} failed")
    return 1 if failed else 0


if __name__ == "__main__":
    sys.exit(main())
