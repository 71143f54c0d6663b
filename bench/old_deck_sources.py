"""Old decks by chance, each with its records, its switches and its table file.

A deck has some of the features that rpg2 doesn't read (FEATURES), and all others are plain; with none of them it is a deck that rpg2
reads as it stands. A seed always gives the same deck.
"""

import random
from dataclasses import dataclass

# Each feature with what a deck then may have.
FEATURES = {
    "columns": "devices, stackers and forms alignment",
    "directive": "/EJECT",
    "debug": "DEBUG",
    "switch": "conditions by switches",
    "form": "an L card",
    "table": "a table file",
    "or": "an OR type",
    "relation": "field record relation",
    "sequence": "types in sequence by number",
    "page2": "PAGE2",
    "spaces": "OR cards of lines with spaces and skips of their own",
    "figurative": "figurative constants",
    "movea": "MOVEA",
    "inputs": "arrays on I cards",
    "arrays": "calculations with whole arrays",
    "outputs": "whole arrays on lines",
    "place": "*PLACE",
    "page": "page numbers with conditions",
    "word": "edit words with more places than digits",
    "dollar": "edit words with a floating $",
    "fetch": "fetched overflow",
    "dates": "UDAY, UMONTH and UYEAR",
    "disks": "several disk files",
    "files": "files by switches",
}
# Those of other systems and devices. A deck with one of them has fewer of the others.
MORE_FEATURES = {
    "habits": "job control, cards of 96 columns, areas, extents, and options of the header",
    "printers": "printers by other names, and two of them",
    "combined": "combined files, and files updated in place",
    "zone": "codes by zone or digit",
    "places": "several *PLACE in a line",
    "structure": "data structures",
    "end": "E in 17 of some of the input files alone",
    "third": "a third input file",
    "ahead": "look ahead",
    "root": "SQRT",
}
TABLE_FILE = "TABF"
NO_INDICATORS = "      "
DIVISIONS = ("AA", "AB", "BA", "CC")
NAMES_OF_OTHERS = ["I#", "I#1", "W#", "W#1", "SEQ#", "BL$", "ZE$", "PG#", "UDMD", "MV#1", "X#", "MV"]
FIGURATIVES = 7


def right(value, width):
    return str(value).rjust(width)


@dataclass
class RecordType:
    character: str
    indicator: str
    or_of: "RecordType | None" = None  # the type that it is an OR card of
    file: str = "IN"
    more_codes: str = ""
    sequence: str = ""


@dataclass(frozen=True)
class OldJob:
    """A deck and all that its job is given. `records` has those of each input file by its name, `table` those of the table file, if the
    deck has one; `printer` is the printer that is looked at, if there are several."""

    deck: str
    records: dict
    table: list | None
    switches: str
    printer: str | None
    features: frozenset

    def write(self, folder):
        """Writes the deck and what it is run with: deck, records, second, third, table, and an empty print and disk."""
        inputs = [self.records.get(it, []) for it in ("IN", "IN2", "IN3")]
        files = {**dict(zip(("records", "second", "third"), inputs)), "table": self.table or [], "print": [], "disk": []}
        (folder / "deck").write_text(self.deck, encoding="ascii", newline="")
        for name, lines in files.items():
            (folder / name).write_text("".join(it + "\n" for it in lines), encoding="ascii", newline="")


class Source:
    """A deck under way."""

    def __init__(self, seed, features=None):
        self.by = random.Random(seed)
        share = 0.18 if seed % 3 else 0.35
        self.features = set(features) if features is not None else {it for it in FEATURES if self.by.random() < share}
        if features is None:
            more = random.Random(f"{seed} more")
            chosen = {it for it in MORE_FEATURES if more.random() < 0.2}
            if chosen:
                self.features = chosen | {it for it in FEATURES if more.random() < 0.06}
        self.halts = self.by.random() < 0.12
        self.has_secondary = self.by.random() < (0.5 if self.has("ahead") else 0.25) or self.has("end", "third")
        self.has_match = self.has_secondary and (not self.has(*MORE_FEATURES) or self.chance(0.9))
        self.has_level_2 = self.by.random() < 0.5 and not self.has_secondary
        self.overflow = self.any("OF", "OV") if self.by.random() < 0.75 or self.has("fetch") else ""
        self.cards, self.data, self.table_rows, self.disks = [], [], None, []
        self.numbers, self.texts, self.arrays = {"AMT": (6, 2), "QTY": (3, 0)}, {"NAM": 6, "DIV": 2}, {}
        self.defined = {"AMT", "QTY"}  # numbers whose length a card has given
        self.indicators = ["30", "31", "32", "33"]
        self.count, self.last_file, self.second_overflow = 0, None, None
        self.rewritten = []
        self.has_subroutine = self.has_exceptions = False

    # ---- chance

    def any(self, *values):
        return self.by.choice(values)

    def chance(self, share):
        return self.by.random() < share

    def has(self, *features):
        return any(it in self.features for it in features)

    # ---- cards

    def card(self, sheet, **columns):
        line = [" "] * 80
        line[5] = sheet
        for place, text in columns.items():
            at = int(place[1:]) - 1
            line[at : at + len(text)] = text
        self.cards.append("".join(line).rstrip())

    def made(self):
        """The text of the deck."""
        self.choose_types()
        options = {"c41": "1"} if self.has("columns") else {}
        if self.has("habits"):
            self.cards += ["// LOAD $RPG,F1", "// RUN"]
            options = {"c37": self.any(*" IB"), "c48": self.any(*" 1S")}
        self.card("H", c75="TEST", **options)
        self.put_files()
        self.put_tables()
        if self.has("form"):
            self.card("L", c7="OUT", c15=self.any("066FL060OL", "060FL055OL", "033FL033OL", "066FL055OL", "021FL018OL"))
        self.put_types()
        self.put_calculations()
        self.put_lines()
        cards = self.cards
        if self.has("directive"):
            at = self.by.randrange(len(cards))
            cards = cards[:at] + [f"     {cards[at][5]}/EJECT"] + cards[at:]
        lines = cards + self.data + (["/*"] if self.chance(0.5) else [])
        if self.has("habits") and self.chance(0.5):
            lines = [it.ljust(96) if self.chance(0.8) or it[:2] in ("/*", "**") else it for it in lines]
        return "".join(it + "\n" for it in lines)

    def choose_types(self):
        self.types = [RecordType("ABCD"[it], f"{it + 1:02}") for it in range(self.by.randint(1, 3))]
        if self.has("or", "relation"):
            self.types.append(RecordType("E", "08", or_of=self.types[-1]))
        if self.has_secondary:
            self.types += [RecordType("F", "05", file="IN2"), RecordType("G", "06", file="IN2")]
        if self.has("third"):
            self.types.append(RecordType("H", "07", file="IN3"))
        if self.has("zone"):
            self.choose_zone()
        self.type_indicators = [it.indicator for it in self.types]

    def choose_zone(self):
        """A type with a code by zone or digit, and perhaps one of all other characters."""
        at = self.by.randrange(len(self.types))
        chosen, code = self.types[at], self.any("ZJ", "ZA", "Z1", "D1", "DA", "Z-", "D ", "ZS")
        chosen.more_codes = f"  50 {code}"
        if self.chance(0.7):
            other = RecordType(chosen.character, "09", file=chosen.file, more_codes=f"  50N{code}")
            self.types.insert(at + 1 if not at or chosen.or_of else at + self.any(0, 1), other)

    def put_files(self):
        device = {"c47": "SYS005"} if self.has("columns") and self.chance(0.7) else {}
        if self.has("habits"):
            device.update(c32=self.any("1", "2"), c67=self.any("   ", " 02", "  1"))
        ends = self.any((" ", "E"), ("E", " ")) if self.has("end") else ("E", "E")
        self.put_input("IN", "P" + ends[0], c20="  80  80", c40="MFCU1", **device)
        if self.has_secondary:
            self.put_input("IN2", "S" + ends[1], c24="  80", c40="DISK")
        if self.has("third"):
            self.card("F", c7="IN3", c15="IS" + ends[1], c19="F", c24="  80", c40="DISK")
        if self.has("table"):
            self.card("F", c7=TABLE_FILE, c15="IT", c19="F", c24="  80", c39="E", c40="DISK")
        form = "L" if self.has("form") else " "
        self.card("F", c7="OUT", c15="O", c19="F", c24=" 132", c33=self.overflow or "  ", c39=form, c40=self.printer_device(), **device)
        if self.has("printers") and self.chance(0.75):
            self.second_overflow = self.any("OG", "OG", "")
            self.card("F", c7="OUT2", c15="O", c19="F", c24=" 132", c33=self.second_overflow, c40="PRINTR2")
        for number in range(self.by.randint(2, 3) if self.has("disks") else self.by.randint(0, 1)):
            length = self.by.randint(30, 60)
            self.disks.append((f"DSK{number}", length))
            switch = {"c71": f"U{self.by.randint(1, 3)}"} if self.has("files") and self.chance(0.6) else {}
            self.card("F", c7=f"DSK{number}", c15="O", c19="F", c24=right(length, 4), c40="DISK45", **switch)

    def put_input(self, name, use, **columns):
        kind = self.any("C", "U") if self.has("combined") and not self.has("third") and self.chance(0.7) else "I"
        if kind != "I":
            self.rewritten.append(name)
        self.card("F", c7=name, c15=kind + use, c19="F", **columns)

    def printer_device(self):
        return self.any("PRINTUF", "PRINTLF") if self.has("printers") and self.chance(0.3) else "PRINTER"

    # ---- tables and arrays

    def put_tables(self):
        for _ in range(self.by.randint(1, 2) + (2 if self.has("arrays", "movea") else 0)):
            name = self.any("A", "AR", "BAR", "CARR", "DARRY", "EARRAY")
            if name not in self.arrays:
                self.put_array(name)
        if self.chance(0.3):
            self.array("WITH", 4, 3, 0, "2", ["001002", "003004"])
        if self.has("table"):
            self.put_table_file()

    def put_array(self, name):
        decimals = self.any(0, 2, None) if self.has("movea", "figurative") else self.any(0, 2, 2)
        entries = self.by.randint(2, 5) if self.chance(0.5 if self.has("habits") else 0.9) else 33
        length = self.by.randint(1, 3) if decimals is None else self.by.randint(3, 7)
        if not self.chance(0.5):
            self.array(name, entries, length, decimals)
            return
        on_a_card = min(entries, 96 // length) if self.has("habits") else self.by.randint(1, min(entries, 80 // length))
        characters = "ABCXYZ " if decimals is None else "0123456789"
        values = ["".join(self.by.choice(characters) for _ in range(length)) for _ in range(entries)]
        rows = ["".join(values[at : at + on_a_card]) for at in range(0, entries, on_a_card)]
        self.array(name, entries, length, decimals, str(on_a_card), rows)

    def array(self, name, entries, length, decimals, on_a_card="", rows=None):
        shown = " " if decimals is None else str(decimals)
        self.card("E", c27=name, c33=right(on_a_card, 3), c36=right(entries, 4), c40=right(length, 3), c44=shown)
        self.arrays[name] = (entries, length, decimals)
        if rows is not None:
            self.data += ["**", *rows]

    def put_table_file(self):
        left, on_a_record = self.by.randint(3, 6), self.by.randint(1, 3)
        self.card(
            "E", c11=TABLE_FILE, c27="TABK", c33=right(on_a_record, 3), c36=right(left, 4), c40="  2", c45=" ", c46="TABV", c52="  4", c56="1"
        )  # fmt: skip
        self.table_rows = []
        while left > 0:
            here = min(on_a_record, left)
            entries = [f"{self.any('AA', 'AB', 'BA', 'BB', 'CC')}{self.by.randint(0, 9999):04}" for _ in range(here)]
            self.table_rows.append("".join(entries))
            left -= here
        if self.chance(0.3) and len(self.table_rows) > 1:
            self.table_rows.pop()

    # ---- types and their fields

    def put_types(self):
        self.read_arrays = [name for name, (entries, length, _) in self.arrays.items() if entries * length <= 30 and name != "WITH"]
        for number, record_type in enumerate(self.types):
            if record_type.or_of is None:
                self.put_type(number, record_type)
        if self.has("ahead"):
            self.put_ahead()
        if self.has("structure"):
            self.put_structure()

    def put_ahead(self):
        self.card("I", c7="IN", c15="ZZ", c19="**")
        self.put_field(3, 4, "NXT", None, NO_INDICATORS, None)
        self.texts["NXT"] = 2
        if self.chance(0.5):
            self.put_field(11, 16, "NXA", 2, NO_INDICATORS, None)
            self.numbers["NXA"] = (6, 2)
            self.defined.add("NXA")

    def put_structure(self):
        """A structure that takes a field apart, or puts fields together."""
        kind = self.any("together", "text", "number")
        name = {"together": "KEY", "text": "NAMDS", "number": "AMTDS"}[kind] if self.chance(0.5) else ""
        self.card("I", c7=name, c19="DS")
        if kind == "together":
            self.put_key(bool(name))
            return
        fields = {"text": [(1, 6, "NAM", None), (1, 2, "NAA", None), (2, 6, "NAB", None)]}
        fields["number"] = [(1, 6, "AMT", 2), (1, 3, "AMA", 0), (4, 6, "AMB", 1)]
        for first, last, field, decimals in fields[kind]:
            self.put_field(first, last, field, decimals, NO_INDICATORS, None)
        if kind == "text":
            self.texts.update(NAA=2, NAB=5)
        else:
            self.numbers.update(AMA=(3, 0), AMB=(3, 1))
            self.defined |= {"AMA", "AMB"}

    def put_key(self, is_named):
        first = self.any(3, 3, 4)
        end = first + 5
        fields = [(1, 2, "DIV", None), (first, end, "NAM", None)]
        if self.chance(0.4):
            fields.append((end + 1, end + 3, "QTY", 0))
        length = fields[-1][1] + self.any(0, 1)
        if not is_named:
            fields.insert(0, (1, length, "KEY", None))
        for one in fields:
            self.put_field(*one, NO_INDICATORS, None)
        self.texts["KEY"] = fields[-1][1] if is_named else length

    def put_type(self, number, record_type):
        record_type.sequence = "AA"
        if self.has("sequence"):
            record_type.sequence = f"{number + 1:02}{self.by.choice('1NN')}{self.by.choice(' OO')}"
        stacker = {"c42": "2"} if self.has("columns") and self.chance(0.4) else {}
        before = self.types[number - 1].file if number else ""
        file = "" if record_type.file == before else record_type.file
        code = f"   1 C{record_type.character}{record_type.more_codes}"
        self.card("I", c7=file, c19=record_type.indicator, c21=code, c15=record_type.sequence, **stacker)
        related = self.put_or(number, record_type)
        self.put_control_fields(number, related)
        self.put_field(5, 10, "NAM", None, "    34" if self.chance(0.3) else NO_INDICATORS, related)
        self.put_field(11, 16, "AMT", 2, "3536  " if self.chance(0.3) else NO_INDICATORS, related)
        if self.chance(0.7) or number == 0:
            self.put_field(17, 19, "QTY", 0, NO_INDICATORS, related)
        if self.has("inputs") and self.read_arrays and (number == 0 or self.chance(0.4)):
            self.put_read_array(self.by.choice(self.read_arrays))

    def put_or(self, number, record_type):
        """OR cards of a type; returns the indicators that its fields may have a relation to."""
        related = None
        for other in self.types:
            if other.or_of is record_type:
                indicator = other.indicator if self.chance(0.85) else "  "
                self.card("I", c14="OR", c19=indicator, c21=f"   1 C{other.character}")
                other.sequence = record_type.sequence
                related = [record_type.indicator, other.indicator] if indicator.strip() else None
        return related

    def put_control_fields(self, number, related):
        if not (number == 0 or self.chance(0.8) or self.has_secondary):
            return
        if self.has_level_2:
            self.put_field(2, 2, "REG", None, NO_INDICATORS, related, "L2")
            self.texts["REG"] = 1
        has_match = self.has_match and (number == 0 or self.chance(0.8))
        self.put_field(3, 4, "DIV", None, NO_INDICATORS, related, "L1M1" if has_match else "L1")

    def put_field(self, first, last, name, decimals, indicators, related, level=""):
        relation = {}
        if related and self.has("relation") and not level and self.chance(0.4):
            relation["c63"] = self.by.choice(related)
        shown = " " if decimals is None else str(decimals)
        self.card("I", c44=right(first, 4), c48=right(last, 4), c52=shown, c53=name, c59=level or "  ", c65=indicators, **relation)

    def put_read_array(self, name):
        """A whole array that is read, or two entries of it."""
        entries, length, decimals = self.arrays[name]
        if self.chance(0.5):
            self.put_field(20, 19 + entries * length, name, decimals, NO_INDICATORS, None)
        elif len(name) <= 4:
            for entry in self.by.sample(range(1, entries + 1), min(entries, 2)):
                indicators = "3738  " if decimals is not None and self.chance(0.4) else NO_INDICATORS
                self.put_field(20 + (entry - 1) * length, 19 + entry * length, f"{name},{entry}", decimals, indicators, None)

    # ---- conditions and operands

    def conditions(self, count=None, pool=None):
        if pool is None:
            pool = self.type_indicators + self.indicators + ["L1"] + (["L2"] if self.has_level_2 else [])
            pool += (["U1", "U2", "U1"] if self.has("switch") else []) + (["MR"] if self.has_match else [])
        count = self.any(0, 1, 1, 2) if count is None else count
        return "".join(self.by.choice("    N") + it for it in self.by.sample(pool, min(count, len(pool))))

    def new_number(self):
        self.count += 1
        name = f"N{self.count}"
        if self.chance(0.12):
            other = self.by.choice(NAMES_OF_OTHERS)
            name = name if other in self.numbers else other
        decimals = self.any(0, 1, 2)
        self.numbers[name] = (self.by.randint(max(3, decimals + 1), 9), decimals)
        return name

    def size_of(self, name):
        """The length and the decimals of a number, where no card has given them; blanks after that."""
        if name in self.defined:
            return "", ""
        self.defined.add(name)
        length, decimals = self.numbers[name]
        return str(length), str(decimals)

    def factor(self):
        numbers = [it for it in self.numbers if it in self.defined and it != "IX"]
        entries = [f"{name},{self.by.randint(1, size[0])}" for name, size in self.arrays.items() if size[2] is not None]
        dates = ["UDAY", "UMONTH", "UYEAR"] if self.has("dates") else []
        return self.by.choice(numbers + entries + dates + ["5", "1.25", "-3", "12"])

    @property
    def number_arrays(self):
        return [name for name, size in self.arrays.items() if size[2] is not None]

    @property
    def text_arrays(self):
        return [name for name, size in self.arrays.items() if size[2] is None]

    # ---- calculations

    def put_calculations(self):
        self.has_subroutine, self.has_exceptions = self.chance(0.3), self.chance(0.35)
        for section in ("detail", "total", "subroutine"):
            if section == "subroutine" and not self.has_subroutine or section == "total" and self.chance(0.15):
                continue
            self.put_section(section)

    def put_section(self, section):
        level_of_labels = {"detail": "  ", "total": "L0", "subroutine": "SR"}[section]
        if section == "subroutine":
            self.card("C", c7="SR", c18="SUB1", c28="BEGSR")
        label = None
        for _ in range(self.by.randint(2, 7)):
            levels = ["L1", "L1", "LR", "L0"] + (["L2"] if self.has_level_2 else [])
            level = self.by.choice(levels) if section == "total" else level_of_labels
            label = self.put_calculation(level, label, section)
            if label and self.chance(0.4):
                self.card("C", c7=level_of_labels, c18=label, c28="TAG")
                label = None
        if label:
            self.card("C", c7=level_of_labels, c18=label, c28="TAG")
        if section == "subroutine":
            self.card("C", c7="SR", c28="ENDSR")

    def put(self, level, operation, first="", second="", result="", size=("", ""), half=" ", shows=NO_INDICATORS, is_alone=False):
        """A calculation with conditions, sometimes the last card of a group."""
        if not is_alone and self.chance(0.15):
            self.card("C", c7=level, c9=self.conditions(self.by.randint(1, 3)))
            if self.chance(0.5):
                self.card("C", c7=self.any("AN", "OR"), c9=self.conditions(1))
            level, conditions = self.any("AN", "OR"), self.conditions(self.by.randint(1, 2))
        else:
            conditions = self.conditions()
        length, decimals = size
        self.card(
            "C", c7=level, c9=conditions, c18=first, c28=operation, c33=second, c43=result, c49=right(length, 3), c52=decimals, c53=half, c54=shows
        )  # fmt: skip

    def operations(self, label, section):
        """What a calculation may be, each as often as it is wanted."""
        choice = ["arithmetic"] * 4 + ["compare", "set", "move", "add", "add"] + ([] if label else ["go"])
        if section != "subroutine":
            choice += ["call"] * self.has_subroutine + ["except"] * (2 * self.has_exceptions)
        choice += ["whole"] * (4 * self.has("arrays")) + ["figurative"] * (5 * self.has("figurative")) + ["movea"] * (5 * self.has("movea"))
        choice += ["debug"] * self.has("debug") + ["search"] * (2 * self.has("table"))
        choice += ["root"] * (3 * self.has("root")) + ["move"] * (4 * self.has("structure"))
        return choice + (["sum_up", "entry"] if self.number_arrays else [])

    def put_calculation(self, level, label, section):
        """Puts a calculation, and returns the label that is still to come."""
        shown = self.by.choice(self.indicators)
        shows = NO_INDICATORS
        if self.chance(0.25):
            shows = "".join(self.any("  ", it) for it in self.by.sample(self.indicators, 3))
        operation = self.by.choice(self.operations(label, section))
        if operation == "go":
            self.count += 1
            label = f"LAB{self.count}"
            self.put(level, "GOTO", "", label)
        elif operation == "entry":
            self.put_entry(level, section)
        elif operation in ("call", "except", "debug"):
            code, subroutine = {"call": ("EXSR", "SUB1"), "except": ("EXCPT", ""), "debug": ("DEBUG", "")}[operation]
            self.put(level, code, "", subroutine)
        elif operation in ("arithmetic", "add", "sum_up"):
            getattr(self, f"put_{operation}")(level, shows)
        else:
            getattr(self, f"put_{operation}")(level, shown)
        return label

    def put_arithmetic(self, level, shows):
        is_new = self.has("structure", "ahead") or self.chance(0.6)
        name = self.new_number() if is_new else self.by.choice([it for it in self.numbers if it != "IX" or self.chance(0.3)])
        size = self.size_of(name)
        operation = self.any("ADD", "SUB", "MULT", "DIV", "Z-ADD", "Z-SUB")
        first = "" if operation[0] == "Z" else self.factor()
        second = self.factor() if operation != "DIV" else self.any("7", "1.5", "QTY" if self.halts else "3")
        half = "H" if self.chance(0.2) else " "
        self.put(level, operation, first, second, name, size, half, shows)
        if operation == "DIV" and half == " " and self.chance(0.5):
            name = self.new_number()
            self.put(level, "MVR", "", "", name, self.size_of(name), " ", shows, is_alone=True)

    def put_root(self, level, _):
        name = self.new_number()
        size = self.size_of(name)
        factors = ["QTY"] * 6 + ["12", "2.25", "0", "99"] + (["AMT"] * 9 if self.halts else [])
        factors += sorted(it for it in self.defined if it[0] == "N" and it in self.numbers and it != name)[:2]
        self.put(level, "SQRT", "", self.by.choice(factors), name, size)

    def put_add(self, level, shows):
        name = self.any("TOT1", "TOT2")
        self.numbers.setdefault(name, (8, 2))
        size = self.size_of(name)
        self.put(level, "ADD", name, self.any("AMT", "QTY"), name, size, " ", shows)

    def put_sum_up(self, level, _):
        name = self.new_number()
        size = self.size_of(name)
        self.put(level, "XFOOT", "", self.by.choice(self.number_arrays), name, size)

    def put_compare(self, level, shown):
        if self.chance(0.7):
            first, second = self.factor(), self.factor()
            self.put(level, "COMP", first, second, shows=shown + "  " + self.any("  ", self.by.choice(self.indicators)))
        else:
            self.put(level, "COMP", "NAM", self.any("'K'", "'AB3'", "DIV"), shows=f"  {shown}  ")

    def put_set(self, level, shown):
        operation = self.any("SETON", "SETOF")
        self.put(level, operation, shows=(shown if self.chance(0.85) else self.by.choice(self.type_indicators)) + "    ")

    def text_size(self):
        """The size of the text TX, on the first card that has it."""
        size = "" if "TX" in self.texts else "9"
        self.texts["TX"] = 9
        return size, ""

    def put_move(self, level, _):
        if self.chance(0.5):
            size = self.text_size()
            parts = [it for it in ("KEY", "NAA", "NAB") if it in self.texts]
            self.put(level, self.any("MOVE", "MOVEL"), "", self.any("NAM", "DIV", "'XYZ'", "QTY", "AMT", *parts), "TX", size)
        else:
            name = self.new_number()
            size = self.size_of(name)
            self.put(level, self.any("MOVE", "MOVEL"), "", self.any("AMT", "QTY", "12"), name, size)

    def put_search(self, level, shown):
        self.put(level, "LOKUP", self.any("DIV", "'BA'"), "TABK", "TABV", shows=f"    {shown}")

    def put_entry(self, level, section):
        name = self.by.choice(self.number_arrays)
        if len(name) <= 3 and self.chance(0.5):
            if "IX" not in self.defined and section == "detail":
                self.numbers["IX"] = (2, 0)
                length, decimals = self.size_of("IX")
                self.card("C", c28="Z-ADD", c33=str(self.by.randint(1, 2)), c43="IX", c49=right(length, 3), c52=decimals)
            if "IX" in self.defined:
                self.put(level, "ADD", self.factor(), self.factor(), f"{name},IX")
        elif len(name) <= 4:
            self.put(level, "ADD", self.factor(), self.factor(), f"{name},{self.by.randint(1, min(9, self.arrays[name][0]))}")

    def put_whole(self, level, _):
        if not self.number_arrays:
            return
        result = self.by.choice(self.number_arrays + self.text_arrays)
        if result in self.text_arrays:
            self.put(level, self.any("MOVE", "MOVEL"), "", self.any(*self.text_arrays, "NAM", "'Q'"), result)
            return
        operation = self.any("ADD", "SUB", "MULT", "DIV", "Z-ADD", "Z-SUB", "MOVE", "ADD")
        pool = self.number_arrays + ["AMT", "QTY", "2", "1.5"]
        first = "" if operation in ("Z-ADD", "Z-SUB", "MOVE") or self.chance(0.2) else self.by.choice(pool)
        if operation == "DIV":
            pool = ["2", "1.5", "7"] + ([result] if self.chance(0.05) else [])
        second = self.by.choice(pool)
        half = "H" if operation != "MOVE" and self.chance(0.2) else " "
        self.put(level, operation, first, second, result, half=half)

    def put_figurative(self, level, shown):
        kind = self.by.randrange(FIGURATIVES)
        if kind == 0:
            self.put(level, "MOVE", "", self.any("*BLANK", "*BLANKS", "*ZEROS"), self.any("NAM", "DIV", *self.text_arrays))
        elif kind == 1:
            self.put(level, self.any("MOVE", "MOVEL", "Z-ADD"), "", "*ZERO", self.any("AMT", "QTY", *self.number_arrays))
        elif kind == 2:
            self.put(level, "COMP", "NAM", self.any("*BLANKS", "*ZEROS"), shows=f"{shown}  {self.by.choice(self.indicators)}")
        elif kind == 3:
            self.put(level, "COMP", self.any("AMT", "QTY"), "*ZEROS", shows=f"{shown}  {self.by.choice(self.indicators)}")
        elif kind == 4:
            size = self.text_size()
            self.put(level, self.any("MOVE", "MOVEL"), "", self.any("*BLANK", "*ZERO"), "TX", size)
        elif kind == 5:
            self.put(level, "COMP", "*ZERO", "QTY", shows=f"{shown}    ")
        elif self.number_arrays:
            self.put(level, "MOVE", "", "*ZEROS", self.by.choice(self.number_arrays))

    def put_movea(self, level, _):
        if not self.text_arrays:
            return
        name = self.by.choice(self.text_arrays)
        entries, is_short = self.arrays[name][0], len(name) < 5

        def entry():
            return f"{name},{self.by.randint(1, entries)}"

        source = self.any("NAM", "'ABCDEF'", name, *self.text_arrays, entry()) if is_short else self.any("NAM", name)
        target = self.any("NAM", name, *self.text_arrays, *([entry()] if is_short else []))
        self.put(level, "MOVEA", "", source, target)

    # ---- fields of lines

    def edit_word(self, length, decimals, more):
        """An edit word with `more` places than digits."""
        if not decimals:
            places = length + more
            blanks = " " * (places - 1)
            return self.any("0" + blanks, blanks + "0", blanks + "*", " " * places, f"0{blanks}-")
        whole = max(1, length - decimals + more)
        has_commas = self.chance(0.6)
        word = ""
        for place in range(whole):
            word += "," if has_commas and place and (whole - place) % 3 == 0 else ""
            word += "0" if place == whole - 1 else " "
        return word + "." + " " * decimals + self.any("", "-", "CR", "&-")

    def field_kinds(self):
        kinds = ["number", "number", "text", "constant"]
        if self.arrays:
            kinds += ["text", "text", "entry"] if self.has("figurative", "movea") else []
            kinds += ["entry"] + (["array"] * 2 if self.has("outputs") else [])
        return kinds + (["date"] * 2 if self.has("dates") else []) + ["today"]

    def put_fields(self, limit, has_place):
        """The fields of a line, up to a column."""
        end, fields = 0, []
        for _ in range(self.by.randint(1, 5)):
            if end > limit - 45 or has_place and self.has("places") and end > 20:
                break
            made = self.output_field(limit - end)
            if made:
                width, columns = made
                end += width
                fields.append({**columns, "c40": right(end, 4)})
        if not fields:
            fields.append({"c40": "   5", "c45": "'EMPTY'"})
            end = 5
        if has_place and self.has("places"):
            for place in range(2, 4 if end <= 35 else 3):
                more = self.any(0, 0, 1, 2) if place > 2 else 0
                fields.append({"c32": "*PLACE", "c40": right(end * place + more, 4), "c23": self.conditions(self.any(0, 0, 1))})
        elif has_place:
            fields.append({"c32": "*PLACE", "c40": right(min(limit, max(end * 2, 60)), 4), "c23": self.conditions(self.any(0, 0, 1))})
        for columns in fields:
            self.card("O", **columns)

    def output_field(self, room):
        """A field with its width; None where there is no room for it."""
        kind = self.by.choice(self.field_kinds())
        conditions = self.conditions(self.any(0, 0, 0, 1))
        if kind == "constant":
            text = self.any("AB", "TOTAL", "IT''S", "*")
            return len(text) + 1, {"c23": conditions, "c45": f"'{text}'"}
        blanks = "B" if self.chance(0.05 if self.has("word") else 0.15) else " "
        if kind == "text":
            name = self.any(*self.texts)
            return self.texts[name] + self.by.randint(0, 3), {"c23": conditions, "c32": name, "c39": blanks}
        if kind in ("date", "today"):
            return 9, {"c23": conditions, **self.date_field(kind)}
        made = self.number_field(kind, room)
        return made and (made[0], {"c23": conditions, "c39": blanks, **made[1]})

    def date_field(self, kind):
        if kind == "date":
            return {"c32": self.any("UDAY", "UMONTH", "UYEAR")}
        words = [{"c38": "Y"}, {"c45": "'  /  /  '"}, {}] + ([{"c45": "'0  /  /  '"}] if self.has("word") else [])
        return {"c32": "UDATE", **self.by.choice(words)}

    def number_field(self, kind, room):
        """A number, an entry or a whole array, edited or not."""
        count = 1
        if kind == "number":
            name = self.by.choice([it for it in self.numbers if it in self.defined])
            length, decimals = self.numbers[name]
        else:
            name = self.any(*self.arrays)
            entries, length, decimals = self.arrays[name]
            count = entries if kind == "array" else 1
            if kind == "entry" and len(name) > 4:
                return None
            name += f",{self.by.randint(1, min(entries, 9))}" if kind == "entry" else ""
        editing = self.editing(length, decimals) if decimals is not None else {}
        width = length + 12 if count == 1 else count * (length + 9)
        return (width, {"c32": name, **editing}) if editing is not None and width <= room else None

    def editing(self, length, decimals):
        """An edit code, an edit word or neither; None where the word has no room on a card."""
        ways = ["code", "code", "word", "none", "fill"] + (["word"] * 6 if self.has("word", "dollar") else [])
        way = self.by.choice(ways)
        if way == "none":
            return {}
        if way == "word":
            more = self.by.randint(1, 2) if self.has("word") and self.chance(0.6) else 0
            word = self.edit_word(length, decimals, more)
            if self.has("dollar") and decimals and "0." in word and self.chance(0.7) and "&" not in word:
                word = word.replace("0.", "$0.")
            return {"c45": f"'{word}'"} if len(word) <= 24 else None
        code = self.by.choice("1234ABCDJKLMZX")
        return {"c38": code, **({"c45": self.any("'*'", "'$'")} if way == "fill" and code not in "ZX" else {})}

    # ---- lines

    def movement(self, time):
        last = {"c18": "0"} if self.chance(0.3) else {"c18": "1"}
        skip = {"c19": "06", "c18": "1"} if time == "H" else {"c18": "1"}
        return self.any({"c18": "1"}, {"c17": "1"}, {"c17": "1", "c18": "2"}, {}, skip, {"c18": "3"}, last)

    def put_line(self, file, time, conditions, others=(), has_place=False, page=None, fetches=False, name=None):
        is_disk = file not in ("OUT", "OUT2")
        columns = {"c15": time, **({"c16": "F"} if fetches else {})}
        if not is_disk:
            columns.update(self.movement(time))
        if name is None and self.last_file == file and self.chance(0.5):
            name = ""
        self.last_file = file
        self.card("O", c7=file if name is None else name, c23=conditions, **columns)
        if self.chance(0.15) and conditions:
            self.card("O", c14="AND", c23=self.conditions(1))
        for other in others:
            own = self.movement(time) if self.has("spaces") and not is_disk and self.chance(0.7) else {}
            self.card("O", c14="OR", c23=other, **own)
        if page is not None:
            self.card("O", c32="PAGE2" if self.has("page2") else "PAGE", c40=" 130", c23=page)
        lengths = {**dict(self.disks), **dict.fromkeys(self.rewritten, 80)}
        limit = 60 if has_place else lengths[file] if is_disk else 120
        self.put_fields(limit, has_place)

    def page(self, share):
        """The conditions of a page number, or None for no page number."""
        if not self.chance(share):
            return None
        return self.any(" L1", " L2" if self.has_level_2 else " L1", " 1P", " 01", "N01", " 30", "") if self.has("page") else ""

    def put_lines(self):
        self.put_headings()
        for _ in range(self.by.randint(1, 3)):
            self.put_detail()
        for name in self.rewritten:
            self.put_rewriting(name)
        if self.second_overflow is not None:
            self.put_second_printer()
        for name, _ in self.disks:
            for _ in range(self.by.randint(1, 2)):
                self.put_line(name, self.by.choice("DTT"), self.conditions(self.by.randint(1, 2)))
        for _ in range(self.by.randint(1, 3)):
            self.put_total()
        self.put_line("OUT", "T", " LR", fetches=self.has("fetch") and self.chance(0.5))
        if self.has_exceptions and not self.has("fetch"):
            for _ in range(self.by.randint(1, 2)):
                self.put_line("OUT", "E", self.conditions(self.by.randint(0, 2)), page=self.page(0.05))

    def put_headings(self):
        has_heading = self.chance(0.8)
        if has_heading:
            others = [f" {self.overflow}"] if self.overflow and self.chance(0.8) else []
            self.put_line("OUT", "H", " 1P", others, page=self.page(0.7))
        if self.chance(0.6):
            conditions = " L1" if self.chance(0.7) else self.conditions(1)
            others = [f" {self.overflow}{self.any('', 'NL1')}"] if self.overflow and self.chance(0.6) else []
            page = self.page(0.7)
            self.put_line("OUT", "H", conditions, others, page=page, name="OUT" if self.chance(0.5) or not has_heading else "")

    def put_detail(self):
        conditions = self.conditions(self.by.randint(1, 2), self.type_indicators + ["30", "31"]) if self.chance(0.8) else " 01"
        others = [self.conditions(1)] if self.chance(0.3) else []
        has_place, page = self.has("place", "places") and self.chance(0.6), self.page(0.05)
        self.put_line("OUT", "D", conditions, others, has_place, page, self.has("fetch") and self.chance(0.25))

    def put_rewriting(self, name):
        """Lines that change records of a file, two for one record sometimes."""
        mine = [it.indicator for it in self.types if it.file == name]
        self.by.shuffle(mine)
        if self.chance(0.3):
            mine = mine[:1] * 2 + mine[1:]
        for indicator in mine[: self.any(0, 1, 1, 2, len(mine))]:
            self.put_line(name, self.any(*"DDDH"), f" {indicator}" + self.any("", "", " 30", "N31", " L1", "N30 32"), name=name)

    def put_second_printer(self):
        if self.chance(0.7):
            others = [f" {self.second_overflow}"] if self.second_overflow else []
            self.put_line("OUT2", "H", " 1P", others, page=self.page(0.3), name="OUT2")
        for _ in range(self.by.randint(1, 2)):
            self.put_line("OUT2", self.any(*"DT"), self.conditions(1), page=self.page(0.1), name="OUT2")

    def put_total(self):
        conditions = " L1" if self.chance(0.5) else self.conditions(1, ["L1", "LR", "L1"])
        others = [" LR" if self.chance(0.5) else self.conditions(1)] if self.chance(0.25) else []
        has_place, page = self.has("place") and self.chance(0.4), self.page(0.1)
        self.put_line("OUT", "T", conditions, others, has_place, page, self.has("fetch") and self.chance(0.7))

    # ---- records

    def records(self):
        """The records of each input file."""
        wanted = self.any(0, 1, 5, 20, 60, 90)
        records = []
        while len(records) < wanted:
            region, division = self.by.choice("XY"), self.by.choice(DIVISIONS)
            records += [self.record(region, division) for _ in range(self.by.randint(1, 7))]
        if self.has_secondary:
            records.sort(key=lambda it: DIVISIONS.index(it[2:4]))
            files = {it.character: it.file for it in self.types}
            return {file: [it for it in records if files[it[0]] == file] for file in sorted(set(files.values()) | {"IN"})}
        if self.has("sequence") and self.chance(0.7):
            characters = [character for _ in range(max(1, wanted // 3)) for character in self.group()]
            return {"IN": [character + it[1:] for character, it in zip(characters, records)]}
        return {"IN": records}

    def record(self, region, division):
        character = self.by.choice(self.types).character
        amount = f"{self.by.randint(0, 99999):05}{self.by.choice('0123456789JKLMN}')}"
        name = self.any("KLAUS ", "AB3   ", "      ", "ZETA  ", "OTTO X", "000000")
        rest = "".join(self.by.choice("0123456789") for _ in range(30)) + (self.by.choice("JKR}-&A1 0S/") if self.has("zone") else "")
        quantity = str(self.by.randint(0, 999))
        if self.halts:
            quantity = self.by.choice(["0", "7", "1X2"] + [quantity] * 40)
        return f"{character}{region}{division}{name}{amount}{quantity:>3}{rest}".rstrip()

    def group(self):
        """The characters of a group of records in their order by number."""
        characters = []
        for sequence in sorted({it.sequence for it in self.types}):
            mine = [it.character for it in self.types if it.sequence == sequence]
            may_repeat, is_optional = sequence[2] == "N", sequence[3] == "O"
            least, most = (0 if is_optional else 1), (2 if may_repeat else 1)
            count = self.by.randint(least, most) if least < most else 1
            characters += [self.by.choice(mine) for _ in range(count)]
        return characters


def made(seed, features=None):
    source = Source(seed, features)
    deck, records = source.made(), source.records()
    switches = "".join(source.by.choice("01") for _ in range(8))
    printer = source.any("OUT", "OUT2") if source.second_overflow is not None else None
    return OldJob(deck, records, source.table_rows, switches, printer, frozenset(source.features))
