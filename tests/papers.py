"""Prints on paper: the characters of each PDF that rpg2 makes are brought back to their page, line and column, by a small reader of its own
and, where poppler is installed, by `pdftotext -bbox`. The PDFs are those of an independent writer: papers.sums has their SHA-256.

A line of papers.sums has the print, the words of the command, and the sum.
"""

import hashlib
import html
import re
import shutil
import subprocess
import tempfile
from collections.abc import Callable, Iterable
from dataclasses import dataclass
from functools import partial
from pathlib import Path

from case_file import lines_in
from outcome import Outcome
from program import Program

HERE = Path(__file__).resolve().parent
SUMS = HERE / "papers.sums"

# Width and height of a sheet, upright, and its margin, in hundredths of a point.
FORMS = {"a4": (59500, 84200, 1800), "letter": (61200, 79200, 1800), "fanfold": (100800, 79200, 0)}

HEAD = b"%PDF-1.4\n%\xe2\xe3\xcf\xd3\n"
SHOWN = re.compile(rb"1 0 0 1 (\d+\.\d\d) (\d+\.\d\d) Tm \(((?:[^\\()]|\\[\\()])*)\) Tj\n")
BAR = re.compile(rb"(\d+\.\d\d) (\d+\.\d\d) (\d+\.\d\d) (\d+\.\d\d) re f\n")
WORD = re.compile(r'xMin="([\d.]+)" yMin="([\d.]+)" xMax="[\d.]+" yMax="([\d.]+)">(.*?)</word>', re.S)

# What a page shows: the characters at each line and column, from 0.
Page = dict[tuple[int, int], set[str]]


class Damaged(Exception):
    """What is wrong with a PDF."""


@dataclass(frozen=True)
class Sheet:
    """The sheet of a command's words, in points."""

    width: float
    height: float
    font: float
    lead: float
    left: float
    top: float
    lines: int

    def line_at(self, y: float) -> int:
        return round((self.height - self.top - (self.lead + self.font) / 2 + self.font / 5 - y) / self.lead)

    def column_at(self, x: float) -> int:
        return round((x - self.left) / (self.font * 0.6) - 0.05)


def value(words: list[str], name: str, otherwise: str) -> str:
    return words[words.index(name) + 1] if name in words else otherwise


def sheet_of(words: list[str]) -> Sheet:
    """The sheet with the larger characters of the two ways that paper lies."""
    form, length, columns = value(words, "--form", "a4"), int(value(words, "--length", "66")), int(value(words, "--columns", "132"))
    short, long, margin = FORMS[form]
    ways = [(short, long)] if form == "fanfold" else [(short, long), (long, short)]
    found = []
    for wide, high in ways:
        lead = (high - 2 * margin) // length
        font = min((wide - 2 * margin) * 10 // (6 * columns), lead, 1200)
        left, top = (wide - columns * font * 6 // 10) // 2, (high - lead * length) // 2
        found.append(Sheet(*(it / 100 for it in (wide, high, font, lead, left, top)), length))
    return max(found, key=lambda it: it.font)


def wanted_pages(text: bytes) -> list[Page]:
    """What the pages of a print show."""
    pages = []
    for part in text.decode("ascii").split("\f"):
        page: Page = {}
        for line, strikes in enumerate(part.split("\n")):
            for strike in strikes.split("\r"):
                for column, character in enumerate(strike):
                    if character != " ":
                        page.setdefault((line, column), set()).add(character)
        pages.append(page)
    return pages


# ---- the reader


def objects_of(pdf: bytes) -> dict[int, bytes]:
    """The objects, each where the table of the file says that it begins."""
    start = int(re.search(rb"startxref\n(\d+)\n%%EOF\n\Z", pdf)[1])
    head = re.compile(rb"xref\n0 (\d+)\n0000000000 65535 f \n").match(pdf, start)
    if not pdf.startswith(HEAD) or head is None:
        raise Damaged("it has no table")
    count, objects = int(head[1]), {}
    table = pdf[head.end() : head.end() + 20 * (count - 1)]
    for number in range(1, count):
        place = re.fullmatch(rb"(\d{10}) 00000 n \n", table[20 * (number - 1) : 20 * number])
        at, mark = int(place[1]), b"%d 0 obj\n" % number
        if not pdf.startswith(mark, at):
            raise Damaged(f"object {number} isn't at {at}")
        objects[number] = pdf[at + len(mark) : pdf.index(b"\nendobj\n", at)]
    if not pdf.startswith(b"trailer\n<</Size %d/Root 1 0 R>>\n" % count, head.end() + len(table)):
        raise Damaged("the trailer is not that of the table")
    return objects


def stream_of(value: bytes) -> bytes:
    found = re.match(rb"<</Length (\d+)>>\nstream\n", value)
    stream = value[found.end() : found.end() + int(found[1])]
    if value[found.end() + int(found[1]) :] != b"endstream":
        raise Damaged("a stream is not as long as it says")
    return stream


def page_of(stream: bytes, sheet: Sheet) -> Page:
    """What the contents of a sheet show, and nothing else may be there."""
    page: Page = {}
    head, _, text = stream.partition(b"BT /F %.2f Tf\n" % sheet.font)
    for x, y, shown in SHOWN.findall(text):
        line, column = sheet.line_at(float(y)), sheet.column_at(float(x))
        for i, character in enumerate(re.sub(rb"\\(.)", rb"\1", shown).decode("ascii")):
            if character != " ":
                page.setdefault((line, column + i), set()).add(character)
    if SHOWN.sub(b"", text) != b"ET\n" or BAR.sub(b"", head) not in (b"", b"0.88 0.96 0.88 rg\n0 g\n"):
        raise Damaged("its contents have something else")
    if len(BAR.findall(head)) not in (0, -(-sheet.lines // 6)):
        raise Damaged("it has another number of bars")
    return page


def read_pages(pdf: bytes, sheet: Sheet) -> list[Page]:
    objects = objects_of(pdf)
    box = b"[0 0 %.2f %.2f]" % (sheet.width, sheet.height)
    tree = re.fullmatch(rb"<</Type/Pages/Count (\d+)/Kids\[([^]]*)\]/MediaBox(\[[^]]*\])/Resources<</Font<</F 3 0 R>>>>>>", objects[2])
    kids = [int(it) for it in re.findall(rb"(\d+) 0 R", tree[2])]
    if len(kids) != int(tree[1]) or tree[3] != box or len(objects) != 3 + 2 * len(kids):
        raise Damaged("the tree of its pages is not that of the sheets")
    leads = [re.fullmatch(rb"<</Type/Page/Parent 2 0 R/Contents (\d+) 0 R>>", objects[kid]) for kid in kids]
    return [page_of(stream_of(objects[int(it[1])]), sheet) for it in leads]


def poppler_pages(path: Path, sheet: Sheet) -> list[Page]:
    """What `pdftotext` finds, word by word."""
    text = subprocess.run(["pdftotext", "-bbox", str(path), "-"], capture_output=True, text=True, check=True, timeout=60).stdout
    pages = []
    for part in re.findall(r"<page[^>]*>(.*?)</page>", text, re.S):
        page: Page = {}
        for x, high, low, word in WORD.findall(part):
            line = int(((float(high) + float(low)) / 2 - sheet.top) / sheet.lead)
            for i, character in enumerate(html.unescape(word)):
                page.setdefault((line, sheet.column_at(float(x)) + i), set()).add(character)
        pages.append(page)
    return pages


# ---- the cases


def fault_of(program: Program, text: bytes, words: list[str], wanted: str) -> str | None:
    """What is wrong with the PDF of a print, if anything is."""
    with tempfile.TemporaryDirectory() as folder:
        path = Path(folder) / "it.pdf"
        (Path(folder) / "it.print").write_bytes(text)
        pages = wanted_pages(text)
        answer = program.answer(["paper", "it.print", "it.pdf", *words], Path(folder))
        if answer != (f"pages {len(pages)}", 0, ""):
            return f"it answers {answer}"
        pdf, sheet = path.read_bytes(), sheet_of(words)
        if read_pages(pdf, sheet) != pages:
            return "a character is elsewhere, or another"
        if shutil.which("pdftotext") and poppler_pages(path, sheet) != pages:
            return "poppler finds a character elsewhere, or another"
        return None if hashlib.sha256(pdf).hexdigest() == wanted else "its bytes differ from those of the other writer"


def shown(program: Program, line: str) -> list[Outcome]:
    print_name, *words, wanted = line.split()
    try:
        fault = fault_of(program, (HERE.parent / print_name).read_bytes(), words, wanted)
    except (Damaged, TypeError, ValueError, IndexError, KeyError, OSError, subprocess.SubprocessError) as why:
        fault = f"it can't be read: {why}"
    return [Outcome("papers.sums", f"{print_name} {' '.join(words)}", fault and f"\n{fault}")]


def jobs_of(program: Program) -> Iterable[Callable[[], list[Outcome]]]:
    for line in lines_in(SUMS):
        yield partial(shown, program, line)
