"""What the cards of an old deck have, read from them as they stand. Nothing is shared with rpg2, neither its code nor its tables.

It reads what rpg2 reads, and besides: U1 to U8, UDAY, UMONTH and UYEAR, PAGE1 to PAGE7, PAGE under conditions, OR types, field record
relation by a type's indicator, sequence by number, arrays on I cards, whole arrays on C and O cards, *BLANK and *ZERO, MOVEA, DEBUG,
fetched overflow, spaces of OR cards, *PLACE, a floating $ and more places in edit words, table files and L cards; job control, cards of
96 columns, codes by zone and digit, data structures, look ahead, E in 17 of some files, combined files and files updated in place, SQRT.
A deck has one primary file, and any number of secondary files, printers and disk files. old_deck_jobs.py runs it.
"""

from dataclasses import dataclass, field

from old_deck_values import Form, unquoted

SWITCHES = [f"U{it}" for it in range(1, 9)]
PAGES = ["PAGE"] + [f"PAGE{it}" for it in range(1, 8)]

# The zones of a card's punches that the character's byte doesn't have.
ZONES_OF_SIGNS = {"&": 12, "-": 13, " ": 15}


@dataclass(frozen=True)
class Condition:
    """An indicator that must be on, or off if it is negated."""

    is_negated: bool
    indicator: str


@dataclass(frozen=True)
class DataFile:
    name: str
    use: str  # columns 15 and 16
    ends: bool  # E in 17
    length: int
    overflow: str
    device: str
    switch: str

    @property
    def is_printer(self):
        return self.device.startswith("PRINT")

    @property
    def is_rewritten(self):
        """Whether lines change its records: a combined file, or one that is updated in place."""
        return self.use[0] in "CU"


@dataclass(frozen=True)
class Code:
    """A character that a record of a type has in a column, or hasn't; or the zone or the digit of one."""

    column: int
    is_negated: bool
    kind: str  # C, Z or D
    character: str

    def part(self, character):
        """The part of a character that counts."""
        byte = character.encode("cp037")[0]
        if self.kind == "Z":
            return ZONES_OF_SIGNS.get(character, byte // 16)
        return byte % 16 if self.kind == "D" else byte

    def holds(self, record):
        return (self.part(record[self.column - 1]) == self.part(self.character)) != self.is_negated


@dataclass
class TypeAlternative:
    """A card that a type begins with, or an OR card of it."""

    indicator: str
    codes: list


@dataclass(frozen=True)
class InputField:
    first: int
    last: int
    decimals: str
    name: str
    level: str
    match: str
    relation: str
    indicators: tuple

    def text_of(self, record):
        return record[self.first - 1 : self.last]


@dataclass
class RecordType:
    file: str
    sequence: str  # columns 15 and 16
    may_repeat: bool
    is_optional: bool
    alternatives: list
    fields: list = field(default_factory=list)

    @property
    def is_ahead(self):
        """Whether its fields are those of the next record."""
        return self.alternatives[0].indicator == "**"

    @property
    def number(self):
        """The place of the type in a group of records; None where letters say that it has none."""
        return int(self.sequence) if self.sequence.isdigit() else None

    def fields_of(self, alternative):
        return [it for it in self.fields if it.relation in ("", alternative.indicator)]


@dataclass
class Structure:
    """A data structure: its name, which may be empty, its subfields, and the text that all of them are parts of."""

    name: str
    fields: list = field(default_factory=list)
    text: str = ""


@dataclass
class Calculation:
    """A calculation, with the AN and OR cards before it: it is done where all conditions of an alternative hold."""

    level: str
    alternatives: list
    operation: str = ""
    factor_1: str = ""
    factor_2: str = ""
    result: str = ""
    is_half_adjusted: bool = False
    indicators: tuple = ()

    @property
    def section(self):
        return "subroutines" if self.level == "SR" else "total" if self.level else "detail"

    @property
    def label(self):
        return self.factor_1 if self.operation in ("TAG", "BEGSR", "ENDSR") else ""


@dataclass
class LineAlternative:
    """Conditions of a line, with the movement of its OR card; None where that has none."""

    conditions: list
    movement: str | None = None


@dataclass(frozen=True)
class OutputField:
    conditions: list
    name: str
    code: str
    is_blanked: bool
    end: int
    word: str | None


@dataclass
class Line:
    file: str
    time: str
    fetches: bool
    movement: str  # columns 17 to 22
    alternatives: list
    fields: list = field(default_factory=list)


class Card:
    def __init__(self, text):
        self.text = text.ljust(80)[:80]
        self.sheet = self.text[5]

    def columns(self, first, last=None):
        return self.text[first - 1 : last or first]

    def part(self, first, last=None):
        return self.columns(first, last).strip()

    def has_no_name(self):
        return not self.part(7, 13)

    def is_or(self):
        return self.has_no_name() and self.columns(14, 15) == "OR"

    def is_and(self):
        return self.has_no_name() and self.columns(14, 16) == "AND"

    def pairs(self, *places):
        return tuple(self.part(at, at + 1) for at in places)

    def conditions(self, first):
        terms = [self.columns(at, at + 2) for at in (first, first + 3, first + 6)]
        return [Condition(it[0] == "N", it[1:]) for it in terms if it.strip()]

    def codes(self):
        places = [at for at in (21, 28, 35) if self.part(at, at + 6)]
        return [Code(int(self.columns(at, at + 3)), self.columns(at + 4) == "N", self.columns(at + 5), self.columns(at + 6)) for at in places]


def is_mark(line, mark):
    return line[:2] == mark and line[2:3] in ("", " ")


def split(text):
    """The cards of a deck and the parts of its data. A comment or a directive is no card."""
    cards, data = [], []
    for line in text.removesuffix("\n").split("\n"):
        if is_mark(line, "/*"):
            break
        if is_mark(line, "**"):
            data.append([])
        elif data:
            data[-1].append(line.ljust(96))
        elif line.strip() and line[6:7] not in ("*", "/") and line[:2] not in ("//", "/&") and line[:5] != "* $$ ":
            cards.append(Card(line))
    return cards, data


class OldDeck:
    """A deck with its forms and first values. `tables` has the records of table files, by their names; `printer` names the one that is
    looked at, the first one if it is None."""

    def __init__(self, text, tables=None, printer=None):
        self.tables, self.wanted_printer = tables or {}, printer
        self.forms = {"UDATE": Form(6, "0"), "UDAY": Form(2, "0"), "UMONTH": Form(2, "0"), "UYEAR": Form(2, "0")}
        self.forms.update((it, Form(4, "0")) for it in PAGES)
        self.files, self.types, self.calculations, self.lines, self.structures = {}, [], [], [], []
        self.entries, self.table_names = {}, []
        self.page_forms = {}  # the lines of a page and its overflow line, by the file of an L card
        self.file, self.fields = "", []
        cards, self.data = split(text)
        reads = {"F": self.read_file, "L": self.read_form, "E": self.read_table}
        reads.update(I=self.read_input, C=self.read_calculation, O=self.read_output)
        for card in cards:
            if card.sheet in reads:
                reads[card.sheet](card)
        self.labels = {it.label: at for at, it in enumerate(self.calculations) if it.label}
        self.views = {}
        for structure in self.structures:
            self.complete(structure)

    def complete(self, structure):
        """The columns of a structure's names."""
        length = max(it.last for it in structure.fields)
        structure.text = " " * length
        self.views.update((it.name, (structure, it.first, it.last)) for it in structure.fields)
        if structure.name:
            self.views[structure.name] = (structure, 1, length)
            self.forms.setdefault(structure.name, Form(length, " "))

    # ---- what the job asks for

    def inputs(self):
        """The names of the primary file and of the secondary files."""
        return [it.name for use in "PS" for it in self.files.values() if it.use[0] in "ICU" and it.use[1] == use]

    @property
    def printers(self):
        return [it for it in self.files.values() if it.is_printer]

    @property
    def printer(self):
        """The printer that is looked at."""
        return next((it for it in self.printers if self.wanted_printer in (None, it.name)), None)

    @property
    def has_match(self):
        return any(it.match for record_type in self.types for it in record_type.fields)

    def disk_files(self):
        """The files that the job writes or rewrites, but for printers."""
        return [it for it in self.files.values() if it.use[0] in "OCU" and not it.is_printer]

    def first_values(self):
        """A value for each name, a list of them for an array or a table."""
        values = {name: list(entries) for name, entries in self.entries.items()}
        for name, form in self.forms.items():
            if name not in values:
                values[name] = [form.nothing()] * form.entries if form.entries else form.nothing()
        return values

    def is_array(self, name):
        """Whether this is the name of a whole array."""
        return name in self.forms and self.forms[name].entries > 0 and name not in self.table_names

    # ---- the sheets

    def read_file(self, card):
        name = card.part(7, 14)
        length = int(card.part(24, 27) or card.part(20, 23))
        use, ends = card.columns(15, 16), card.columns(17) == "E"
        self.files[name] = DataFile(name, use, ends, length, card.part(33, 34), card.part(40, 46), card.part(71, 72))

    def read_form(self, card):
        self.page_forms[card.part(7, 14)] = int(card.columns(15, 17)), int(card.columns(20, 22))

    def read_table(self, card):
        on_a_record, count = card.part(33, 35), int(card.columns(36, 39))
        forms = {card.part(27, 32): Form(int(card.columns(40, 42)), card.columns(44), count)}
        if card.part(46, 51):
            forms[card.part(46, 51)] = Form(int(card.columns(52, 54)), card.columns(56), count)
        rows = None
        if card.part(11, 18):
            rows = self.tables[card.part(11, 18)]
        elif on_a_record:
            rows = self.data.pop(0)
        self.forms.update(forms)
        self.table_names += [it for it in forms if it.startswith("TAB")]
        values = self.read_entries(forms, rows, int(on_a_record)) if rows is not None else {it: [] for it in forms}
        for name, form in forms.items():
            self.entries[name] = values[name] + [form.nothing()] * (count - len(values[name]))

    @staticmethod
    def read_entries(forms, rows, on_a_record):
        """The entries of the tables of an E card, which alternate on their records."""
        values = {it: [] for it in forms}
        left = next(iter(forms.values())).entries
        for row in rows:
            here, at = min(on_a_record, left), 0
            for name, form in list(forms.items()) * here:
                values[name].append(form.read(row[at : at + form.length].ljust(form.length)))
                at += form.length
            left -= here
        return values

    def read_input(self, card):
        if card.columns(19, 20) == "DS" and not card.part(43, 58):
            self.structures.append(Structure(card.part(7, 12)))
            self.fields = self.structures[-1].fields
            return
        if card.is_or() and card.columns(14, 16) != "ORD":
            alternatives = self.types[-1].alternatives
            alternatives.append(TypeAlternative(card.part(19, 20) or alternatives[-1].indicator, card.codes()))
        elif card.is_and():
            self.types[-1].alternatives[-1].codes += card.codes()
        elif card.part(7, 16):
            self.file = card.part(7, 14) or self.file
            first = TypeAlternative(card.part(19, 20), card.codes())
            self.types.append(RecordType(self.file, card.columns(15, 16), card.columns(17) == "N", card.columns(18) == "O", [first]))
            self.fields = self.types[-1].fields
        else:
            self.read_input_field(card)

    def read_input_field(self, card):
        first, last = int(card.columns(44, 47)), int(card.columns(48, 51))
        level, match, relation = card.pairs(59, 61, 63)
        read = InputField(first, last, card.columns(52), card.part(53, 58), level, match, relation, card.pairs(65, 67, 69))
        self.fields.append(read)
        self.forms.setdefault(read.name.split(",")[0], Form(last - first + 1, read.decimals))

    def read_calculation(self, card):
        level, conditions = card.columns(7, 8), card.conditions(9)
        if level == "OR":
            self.calculations[-1].alternatives.append(conditions)
        elif level == "AN":
            self.calculations[-1].alternatives[-1] += conditions
        else:
            self.calculations.append(Calculation(level.strip(), [conditions]))
        read = self.calculations[-1]
        read.operation, read.factor_1, read.factor_2 = card.part(28, 32), card.part(18, 27), card.part(33, 42)
        read.result, read.is_half_adjusted, read.indicators = card.part(43, 48), card.columns(53) == "H", card.pairs(54, 56, 58)
        if card.part(49, 51):
            self.forms.setdefault(read.result, Form(int(card.columns(49, 51)), card.columns(52)))

    def read_output(self, card):
        conditions = card.conditions(23)
        if card.is_or():
            movement = card.columns(17, 22)
            self.lines[-1].alternatives.append(LineAlternative(conditions, movement if movement.strip() else None))
        elif card.is_and():
            self.lines[-1].alternatives[-1].conditions += conditions
        elif card.part(7, 16):
            self.file = card.part(7, 14) or self.file
            self.lines.append(Line(self.file, card.columns(15), card.columns(16) == "F", card.columns(17, 22), [LineAlternative(conditions)]))
        else:
            word = unquoted(card.columns(45, 70).rstrip())
            read = OutputField(conditions, card.part(32, 37), card.part(38), card.columns(39) == "B", int(card.columns(40, 43)), word)
            self.lines[-1].fields.append(read)
