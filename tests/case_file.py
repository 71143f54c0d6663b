"""Files of cases: README.md describes how they are written."""

from dataclasses import dataclass, field
from pathlib import Path

ALLOWANCE = 1_000
DATE = "010576"

# What a character means after a backslash in a line of text; any other means itself.
ESCAPES = {"f": "\f", "r": "\r", "t": "\t", "u": "\x1f", "d": "\x7f", "o": "\xff"}

# The marks whose lines are kept as they are, and the marks that end a run.
PARTS = {"source", "object", "card", "byte", "input", "secondary", "print", "disk", "compiled"}
QUESTIONS = {"verify", "answer", "spelled", "sweep", "cycles", "damage", "values"}


@dataclass(frozen=True)
class Run:
    """One run of a case: what it is given, and what is expected of it."""

    name: str
    place: str  # the file and the line that end it
    question: str
    line: str  # the expected answer
    source: bytes | None = None
    object: bytes | None = None
    allowance: int = ALLOWANCE
    date: str = DATE
    is_run: bool = False
    devices: tuple[str, ...] = ()  # what the readers and writers do
    most: str | None = None
    input: bytes = b""
    secondary: bytes = b""
    print: bytes = b""
    disk: bytes = b""
    compiled: bytes | None = None
    unknown: str | None = None  # a mark that isn't known


@dataclass
class Part:
    """What the lines after a mark are: the first card or byte that they replace, and how often each line is taken."""

    word: str | None = None
    at: int = 0
    times: int = 1


@dataclass
class Case:
    """A case as far as it was read. The source or object stays for the cases after it; its changes are the case's own."""

    name: str = ""
    is_source: bool = True
    text: list[str] = field(default_factory=list)
    changes: list[tuple[int, str]] = field(default_factory=list)
    length: int | None = None
    allowance: int = ALLOWANCE
    date: str = DATE
    part: Part = field(default_factory=Part)
    lines: dict[str, list[str]] = field(default_factory=dict)  # of one run
    devices: list[str] = field(default_factory=list)
    most: str | None = None
    unknown: str | None = None

    def begin(self, name: str) -> None:
        self.end_run()
        self.name, self.changes, self.length = name, [], None
        self.allowance, self.date, self.unknown = ALLOWANCE, DATE, None

    def end_run(self) -> None:
        self.part, self.lines, self.devices, self.most = Part(), {}, [], None

    def begin_part(self, word: str, value: str) -> None:
        self.part = Part(word, int(value) if word in ("card", "byte") else 0)
        if word in ("source", "object"):
            self.is_source, self.text = word == "source", []
        elif word not in ("card", "byte"):
            self.lines.setdefault(word, [])

    def mark(self, word: str, value: str) -> None:
        """Takes a line `--- WORD VALUE` that ends no run."""
        if word in PARTS:
            self.begin_part(word, value)
        elif word == "times":
            self.part.times = int(value)
        elif word == "allowance":
            self.allowance = max(1, int(value))
        elif word == "date":
            self.date = value
        elif word == "length":
            self.length = int(value)
        elif word == "device":
            self.devices.append(value)
        elif word == "most":
            self.most = value
        else:
            self.unknown = word

    def add(self, line: str) -> None:
        for _ in range(self.part.times):
            if self.part.word in ("source", "object"):
                self.text.append(line)
            elif self.part.word in ("card", "byte"):
                self.changes.append((self.part.at, line))
                self.part.at += 1
            elif self.part.word:
                self.lines[self.part.word].append(line)

    def cards(self) -> list[str]:
        cards = list(self.text)
        for at, line in self.changes:
            if 1 <= at <= len(cards):
                cards[at - 1] = line
            else:
                cards.append(line)
        return cards

    def object(self) -> bytes:
        made = bytearray(hex_of(self.text))
        for at, line in self.changes:
            piece = hex_of([line])
            at = min(at, len(made))
            made[at : at + len(piece)] = piece
        return bytes(made[: self.length])

    def run(self, place: str, question: str, line: str) -> Run:
        return Run(
            self.name,
            place,
            question,
            line,
            source=text_of(self.cards()) if self.is_source else None,
            object=None if self.is_source else self.object(),
            allowance=self.allowance,
            date=self.date,
            is_run="input" in self.lines,
            devices=tuple(self.devices),
            most=self.most,
            compiled=hex_of(self.lines["compiled"]) if "compiled" in self.lines else None,
            unknown=self.unknown,
            **{it: text_of(self.lines.get(it, [])) for it in ("input", "secondary", "print", "disk")},
        )


def text_of(lines: list[str]) -> bytes:
    """The bytes of lines of text; a line that ends with one backslash has no line feed."""
    made = []
    for line in lines:
        characters = iter(line)
        for it in characters:
            if it == "\\":
                it = next(characters, None)
                if it is None:
                    break
                it = ESCAPES.get(it, it)
            made.append(it)
        else:
            made.append("\n")
    return "".join(made).encode("latin-1")


def hex_of(lines: list[str]) -> bytes:
    """The bytes of lines of hex, each with blanks anywhere and after a `;` what they are."""
    return b"".join(bytes.fromhex(it.partition(";")[0].replace("_", "")) for it in lines)


def lines_in(path: Path) -> list[str]:
    """The lines of a file, byte for byte."""
    text = path.read_text(encoding="latin-1")
    return text.removesuffix("\n").split("\n")


def runs_in(path: Path) -> list[Run]:
    """All runs of a file of cases."""
    case, runs = Case(), []
    for number, line in enumerate(lines_in(path), start=1):
        if line.startswith("=== "):
            case.begin(line[4:])
        elif line.startswith("--- "):
            word, _, value = line[4:].partition(" ")
            if word in QUESTIONS:
                runs.append(case.run(f"{path.name}:{number}", word, value))
                case.end_run()
            else:
                case.mark(word, value)
        else:
            case.add(line)
    return runs
