"""A source card by card: files, tables, input fields, calculations and lines, by the columns of docs/LANGUAGE.md.

Only what the evaluator does is read; a source that has more is not evaluated.
"""

from dataclasses import dataclass, field

from values import Form


class NotEvaluated(Exception):
    """The source has something that isn't evaluated here."""


@dataclass(frozen=True)
class Condition:
    indicator: str
    is_negated: bool


@dataclass(frozen=True)
class Entry:
    """A name; its index is a number, a name, or there is none."""

    name: str
    index: int | str | None = None


@dataclass(frozen=True)
class Literal:
    form: Form
    value: int | str


Factor = Entry | Literal
Alternatives = list[list[Condition]]


@dataclass(frozen=True)
class Shows:
    """The indicators that a result turns on: plus or high, minus or low, zero or equal; each may be empty."""

    high: str = ""
    low: str = ""
    equal: str = ""

    def named(self) -> list[str]:
        return [it for it in (self.high, self.low, self.equal) if it]

    def of(self, order: int) -> str:
        return {1: self.high, -1: self.low, 0: self.equal}[order]


@dataclass(frozen=True)
class Table:
    name: str
    form: Form
    entries: int
    on_a_card: int
    other: "Table | None" = None  # the alternating one


@dataclass(frozen=True)
class InputField:
    name: str
    form: Form
    first: int
    level: str
    shows: Shows


@dataclass
class Calculation:
    level: str
    alternatives: Alternatives
    operation: str = ""
    first: Factor | None = None
    second: Factor | None = None
    result: Entry | None = None
    form: Form | None = None
    is_half_adjusted: bool = False
    shows: Shows = Shows()

    @property
    def label(self) -> str | None:
        is_label = self.operation in ("TAG", "ENDSR") and self.first is not None
        return self.first.name if is_label else None


@dataclass(frozen=True)
class LineField:
    conditions: list[Condition]
    end: int
    entry: Entry | None
    is_blanked: bool
    constant: str


@dataclass
class Line:
    time: str
    alternatives: Alternatives
    fields: list[LineField] = field(default_factory=list)


@dataclass
class Source:
    """The contents of all cards. Calculations are kept by their parts: `detail`, `total`, or a subroutine's name."""

    record_length: int = 0
    page: int = 66
    width: int = 0
    indicator: str = ""
    tables: list[Table] = field(default_factory=list)
    inputs: list[InputField] = field(default_factory=list)
    parts: dict[str, list[Calculation]] = field(default_factory=lambda: {"detail": [], "total": []})
    lines: list[Line] = field(default_factory=list)
    data: list[list[str]] = field(default_factory=list)


def columns(card: str, first: int, last: int) -> str:
    return card[first - 1 : last]


def text_in(card: str, first: int, last: int) -> str:
    return columns(card, first, last).strip()


def number_in(card: str, first: int, last: int) -> int:
    return int(text_in(card, first, last) or 0)


def form_in(card: str, first: int, last: int, decimals: int) -> Form:
    places = text_in(card, decimals, decimals)
    return Form(number_in(card, first, last), int(places) if places else None)


def conditions_in(card: str, first: int) -> list[Condition]:
    three = (columns(card, at, at + 2) for at in range(first, first + 9, 3))
    return [Condition(it[1:], it[0] == "N") for it in three if it.strip()]


def shows_in(card: str, first: int) -> Shows:
    return Shows(*(text_in(card, at, at + 1) for at in range(first, first + 6, 2)))


def entry_of(text: str) -> Entry:
    name, comma, index = text.partition(",")
    return Entry(name, (int(index) if index.isdigit() else index) if comma else None)


def factor_of(text: str) -> Factor | None:
    if not text:
        return None
    if text[0] == "'":
        inner = text[1:-1].replace("''", "'")
        return Literal(Form(len(inner), None), inner)
    if text[0] in "+-.0123456789":
        whole, _, fraction = text.lstrip("+-").partition(".")
        digits = whole + fraction
        return Literal(Form(len(digits), len(fraction)), int(digits) * (-1 if text[0] == "-" else 1))
    return entry_of(text)


def reads_file(source: Source, card: str) -> None:
    length = number_in(card, 24, 27)
    if columns(card, 15, 16) == "IP":
        source.record_length = length
    elif columns(card, 15, 15) == "O" and text_in(card, 40, 46) == "PRINTER" and not text_in(card, 33, 34):
        source.width = length
    else:
        raise NotEvaluated("a file")


def reads_form(source: Source, card: str) -> None:
    source.page = number_in(card, 15, 17)


def reads_table(source: Source, card: str) -> None:
    entries, on_a_card = number_in(card, 36, 39), number_in(card, 33, 35)
    other_name = text_in(card, 46, 51)
    other = Table(other_name, form_in(card, 52, 54, 56), entries, on_a_card) if other_name else None
    source.tables.append(Table(text_in(card, 27, 32), form_in(card, 40, 42, 44), entries, on_a_card, other))


def reads_input(source: Source, card: str) -> None:
    if text_in(card, 7, 16):
        if source.indicator or text_in(card, 21, 41):
            raise NotEvaluated("a record type")
        source.indicator = columns(card, 19, 20)
        return
    first, last = number_in(card, 44, 47), number_in(card, 48, 51)
    places = text_in(card, 52, 52)
    form = Form(last - first + 1, int(places) if places else None)
    source.inputs.append(InputField(text_in(card, 53, 58), form, first, text_in(card, 59, 60), shows_in(card, 65)))


def group_of(source: Source, card: str, before: Calculation | None) -> Calculation:
    """The calculation that a card belongs to: it continues the one before, or begins another."""
    level, conditions = text_in(card, 7, 8), conditions_in(card, 9)
    if level in ("AN", "OR") and before is not None:
        if level == "AN":
            before.alternatives[-1] += conditions
        else:
            before.alternatives.append(conditions)
        return before
    if text_in(card, 28, 32) == "BEGSR":
        source.parts[text_in(card, 18, 27)] = []
    begun = Calculation(level if level != "SR" else "", [conditions])
    part = "detail" if not level else list(source.parts)[-1] if level == "SR" else "total"
    source.parts[part].append(begun)
    return begun


def reads_calculation(source: Source, card: str, before: Calculation | None) -> Calculation:
    group = group_of(source, card, before)
    group.operation = text_in(card, 28, 32)
    group.first, group.second = factor_of(text_in(card, 18, 27)), factor_of(text_in(card, 33, 42))
    result = text_in(card, 43, 48)
    group.result = entry_of(result) if result else None
    group.form = form_in(card, 49, 51, 52) if text_in(card, 49, 51) else None
    group.is_half_adjusted = columns(card, 53, 53) == "H"
    group.shows = shows_in(card, 54)
    return group


def reads_line(source: Source, card: str) -> None:
    conditions = conditions_in(card, 23)
    joins = text_in(card, 14, 16) if not text_in(card, 7, 13) else ""
    if joins == "AND":
        source.lines[-1].alternatives[-1] += conditions
    elif joins == "OR":
        source.lines[-1].alternatives.append(conditions)
    elif text_in(card, 7, 16):
        if text_in(card, 17, 22):
            raise NotEvaluated("a movement of the paper")
        source.lines.append(Line(columns(card, 15, 15), [conditions]))
    else:
        reads_line_field(source, card)


def reads_line_field(source: Source, card: str) -> None:
    name, text = text_in(card, 32, 37), text_in(card, 45, 70)
    if text_in(card, 38, 38) or name == "PAGE" or name and text:
        raise NotEvaluated("an edited field")
    entry = entry_of(name) if name else None
    constant = factor_of(text).value if text else ""
    source.lines[-1].fields.append(
        LineField(conditions_in(card, 23), number_in(card, 40, 43), entry, columns(card, 39, 39) == "B", constant)
    )


def source_of(text: str) -> Source:
    """The source that cards are."""
    source, before = Source(), None
    for card in text.removesuffix("\n").split("\n"):
        card = card.ljust(80)
        if card.startswith("** "):
            source.data.append([])
        elif source.data:
            source.data[-1].append(card)
        elif not card.strip() or columns(card, 7, 7) == "*" or columns(card, 6, 6) == "H":
            continue
        elif columns(card, 6, 6) == "C":
            before = reads_calculation(source, card, before)
        else:
            {"F": reads_file, "E": reads_table, "L": reads_form, "I": reads_input, "O": reads_line}[columns(card, 6, 6)](source, card)
    return source
