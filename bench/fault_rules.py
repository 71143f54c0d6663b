"""The rules of docs/MESSAGES.md, applied to the cards of a source one by one, each as the page has it. Nothing is shared with rpg2."""

import re
from collections import namedtuple

Form = namedtuple("Form", "shape is_text length decimals entries ascending")
Operation = namedtuple("Operation", "factor_1 factor_2 result rounds shown")

ARITHMETIC = Operation("number?", "number", "number", True, "any")
OPERATIONS = {
    **dict.fromkeys(("ADD", "SUB", "MULT", "DIV"), ARITHMETIC),
    **dict.fromkeys(("Z-ADD", "Z-SUB"), Operation(None, "number", "number", True, "any")),
    "MVR": Operation(None, None, "number", False, "any"),
    "XFOOT": Operation(None, "array", "number", True, "any"),
    **dict.fromkeys(("MOVE", "MOVEL"), Operation(None, "value", "value", False, "none")),
    "COMP": Operation("value", "value", None, False, "some"),
    "LOKUP": Operation("value", "searched", "table?", False, "search"),
    **dict.fromkeys(("SETON", "SETOF"), Operation(None, None, None, False, "some")),
    "GOTO": Operation(None, "name", None, False, "none"),
    "EXSR": Operation(None, "name", None, False, "none"),
    "TAG": Operation("name", None, None, False, "none"),
    "BEGSR": Operation("name", None, None, False, "none"),
    "ENDSR": Operation("name?", None, None, False, "none"),
    "EXCPT": Operation(None, None, None, False, "none"),
}
LABELS = ("TAG", "BEGSR", "ENDSR")
SHEETS = "HFELICO"


# ---- cards, as they are read


def part(card, first, last):
    return card[first - 1 : last].rstrip()


def number(card, first, last):
    """A number, or None where its columns are blank."""
    text = card[first - 1 : last].strip()
    return int(text) if text else None


def entry(text):
    """A name and its index: None, a number or a name."""
    name, comma, index = text.partition(",")
    if not comma:
        return name, None
    return name, int(index) if index.isdigit() else index


def groups_of_three(card, first):
    return [card[at - 1 : at + 2] for at in (first, first + 3, first + 6)]


class Card:
    """A card on a sheet, or one of data."""

    def __init__(self, number, text):
        self.number = number
        self.text = text.ljust(80)
        self.sheet = self.text[5]

    def part(self, first, last):
        return part(self.text, first, last)

    def value(self, first, last):
        return number(self.text, first, last)

    def conditions(self, first):
        return [it[1:] for it in groups_of_three(self.text, first) if it.strip()]

    def is_and(self):
        return self.text[6:13].strip() == "" and self.text[13:16] == "AND"

    def is_or(self):
        return self.text[6:13].strip() == "" and self.text[13:16] == "OR "

    def is_field(self):
        return self.text[6:16].strip() == ""

    # calculations

    def joins(self):
        return self.part(7, 8) in ("AN", "OR")

    def operation(self):
        return self.part(28, 32) or None

    def factor(self, first):
        """None, a literal as a form, or an entry."""
        text = self.part(first, first + 9)
        if not text:
            return None
        if text[0] == "'":
            return Form("constant", True, len(text[1:-1].replace("''", "'")), None, 1, False)
        if text[0] in "+-.0123456789":
            digits = text.lstrip("+-")
            decimals = len(digits.partition(".")[2])
            return Form("constant", False, len(digits.replace(".", "")), decimals, 1, False)
        return entry(text)

    def result(self):
        text = self.part(43, 48)
        return entry(text) if text else None

    def shown(self):
        return [self.part(at, at + 1) for at in (54, 56, 58)]


def cards_of(source):
    """The cards on a sheet and those of data."""
    cards, decks = [], []
    for at, line in enumerate(source):
        text = line.ljust(80)
        if text[:3] == "/* ":
            break
        if text[:3] == "** ":
            decks.append((at + 1, []))
        elif decks:
            decks[-1][1].append(text)
        elif text.strip() and text[6] != "*":
            cards.append(Card(at + 1, line))
    return cards, decks


# ---- the sheets' faults, where columns have a `?` that they never allow

FREE = {"H": (7, 14), "F": (20, 23), "E": (58, 74), "C": (60, 74)}


def has_form_elsewhere(text):
    """L in 39 on the F card of another file than the printer."""
    return text[5] == "F" and text[38] == "L" and (text[14] != "O" or text[39:46] != "PRINTER")


def sheet_faults(source):
    found, latest, is_data = [], 0, False
    for at, line in enumerate(source):
        text = line[:80].ljust(80)
        code = None
        on_sheet = not is_data and text[:3] not in ("** ", "/* ") and text.strip() and text[6] != "*"
        place = SHEETS.find(text[5]) if on_sheet else -1
        if len(line) > 80:
            code = "S1"
        elif any(not " " <= c <= "~" for c in line):
            code = "S2"
        elif on_sheet and place < 0:
            code = "S3"
        elif on_sheet and place < latest:
            code = "S4"
        elif on_sheet and ("?" in text[6:74] or has_form_elsewhere(text)):
            code = "S5"
        if code:
            found.append((at + 1, code))
        latest = max(latest, place)
        is_data = is_data or text[:3] == "** "
        if text[:3] == "/* ":
            break
    return found


# ---- names and their forms


def sized(shape, length, decimals, entries=1, ascending=False):
    """A form, or None where its size is past a limit."""
    if not 1 <= entries <= 9999:
        return None
    if decimals is None:
        return Form(shape, True, length, None, entries, ascending) if 1 <= length <= 256 else None
    fits = 1 <= length <= 15 and decimals <= 9 and decimals <= length
    return Form(shape, False, length, decimals, entries, ascending) if fits else None


def tables_on(card):
    """Name, length, decimals and sequence of the tables of an E card."""
    tables = [(card.part(27, 32), card.value(40, 42), card.value(44, 44), card.part(45, 45) == "A")]
    if card.part(46, 51):
        tables.append((card.part(46, 51), card.value(52, 54), card.value(56, 56), card.part(57, 57) == "A"))
    return tables


def definitions_on(card):
    """Names with their forms; the form is None where it is bad."""
    if card.sheet == "E":
        entries = card.value(36, 39)
        return [
            (name, sized("table" if name.startswith("TAB") else "array", length, decimals, entries, ascending))
            for name, length, decimals, ascending in tables_on(card)
        ]
    if card.sheet == "I" and card.is_field():
        first, last = card.value(44, 47), card.value(48, 51)
        form = sized("plain", last - first + 1, card.value(52, 52)) if first <= last else None
        return [(card.part(53, 58), form)]
    if card.sheet == "C" and card.value(49, 51) is not None and card.result():
        return [(card.result()[0], sized("plain", card.value(49, 51), card.value(52, 52)))]
    return []


class Names:
    """The first definition of each name."""

    def __init__(self, cards):
        self.forms = {
            "UDATE": Form("date", False, 6, 0, 1, False),
            "PAGE": Form("plain", False, 4, 0, 1, False),
        }
        self.first = {"UDATE": 0, "PAGE": 0}
        for card in cards:
            for name, form in definitions_on(card):
                if name not in self.forms:
                    self.forms[name] = form
                    self.first[name] = card.number


# ---- the rules


class Rules:
    """What is known of a source, and each rule as a test of a card. `at` is a card's place among the cards on a sheet."""

    def __init__(self, source):
        self.cards, self.decks = cards_of(source)
        self.names = Names(self.cards)
        self.calculations = [c for c in self.cards if c.sheet == "C"]
        self.last_of = {}  # of a calculation card the last one of its group
        self.first_of = {}
        self.section = {}
        self.given = []  # labels and subroutines: name, is a subroutine's, section, card
        self.calls = []
        self.group_calculations()
        self.walk_sections()
        self.files = {}
        for c in self.cards:
            if c.sheet == "F":
                self.files.setdefault(c.part(7, 14), c)
        self.open_files()

    def group_calculations(self):
        first = None
        for at, c in enumerate(self.calculations):
            first = first if c.joins() and first else c
            self.first_of[c.number] = first
            following = self.calculations[at + 1 :]
            last = c
            for d in following:
                if not d.joins():
                    break
                last = d
            self.last_of[c.number] = last

    def operation_of(self, card):
        """The operation of the last card of a group, where this card is that one."""
        return card.operation() if self.last_of[card.number] is card else None

    def control(self, card):
        return self.first_of[card.number].part(7, 8)

    def walk_sections(self):
        """A group's section: detail, total, a subroutine's number, or None outside of all."""
        inside, count = False, -1
        for c in self.calculations:
            if self.last_of[c.number] is not c:
                continue
            control, operation = self.control(c), c.operation()
            if control == "SR":
                if operation == "BEGSR":
                    inside, count = True, count + 1
                section = count if inside else None
                if operation == "ENDSR":
                    inside = False
            else:
                section = {"": "detail", "AN": None, "OR": None}.get(control, "total")
            self.section[c.number] = section
            factor = c.factor(18)
            if operation in LABELS and isinstance(factor, tuple) and not isinstance(factor, Form) and factor[1] is None:
                self.given.append((factor[0], operation == "BEGSR", section, c))
            goal = c.factor(33)
            if operation == "EXSR" and is_name(goal):
                self.calls.append((c, section, goal[0]))

    def open_files(self):
        """The file that each I and O card belongs to, by name; None before all."""
        self.file_of = {}
        for sheet in "IO":
            name = None
            for c in self.cards:
                if c.sheet != sheet:
                    continue
                is_head = not c.is_field() and not c.is_and() and not (sheet == "O" and c.is_or())
                if is_head and c.part(7, 14):
                    name = c.part(7, 14)
                self.file_of[c.number] = name

    def form(self, name):
        return self.names.forms.get(name)

    def label(self, name):
        return next((it for it in self.given if it[0] == name), None)

    # ---- operands: what the columns for fields have, and what they require

    def operands(self, card):
        if card.sheet == "C":
            operation = OPERATIONS.get(self.operation_of(card))
            if not operation:
                return []
            found = [(operation.factor_1, card.factor(18)), (operation.factor_2, card.factor(33)), (operation.result, card.result())]
            return [(want.rstrip("?"), it) for want, it in found if want and it and not want.startswith("name")]
        if card.sheet == "O" and card.is_field() and card.part(32, 37):
            return [("value", entry(card.part(32, 37)))]
        return []

    def form_of(self, operand):
        return operand if isinstance(operand, Form) else self.form(operand[0])

    def factor_form(self, card, want, operand):
        """The form of an operand that the operation has, or None."""
        if not want or operand is None or want.startswith("name"):
            return None
        return self.form_of(operand)

    def F1(self, at, card):
        for _, it in self.operands(card):
            if isinstance(it, Form):
                continue
            names = [it[0]] + ([it[1]] if isinstance(it[1], str) else [])
            if any(name not in self.names.forms for name in names):
                return True
        return False

    def F2(self, at, card):
        seen = Names(self.cards[:at])
        for name, form in definitions_on(card):
            if name in seen.forms:
                first = seen.forms[name]
                if first and form and first != form:
                    return True
            else:
                seen.forms[name] = form
        return False

    def F3(self, at, card):
        if card.sheet == "E":
            return any(sized("plain", length, decimals) is None for _, length, decimals, _ in tables_on(card))
        if card.sheet == "I" and card.is_field():
            return card.value(44, 47) <= card.value(48, 51) and definitions_on(card)[0][1] is None
        if card.sheet == "C":
            length, decimals = card.value(49, 51), card.value(52, 52)
            return decimals is not None if length is None else sized("plain", length, decimals) is None
        return False

    def F4(self, at, card):
        if card.sheet == "O" and card.is_field() and card.part(32, 37):
            form = self.form(entry(card.part(32, 37))[0])
            if not form:
                return False
            edits = card.part(38, 38) or card.part(45, 70)
            return bool(form.is_text and edits) or (card.part(39, 39) == "B" and form.shape == "date")
        if card.sheet != "C":
            return False
        name = self.operation_of(card)
        operation = OPERATIONS.get(name)
        if not operation:
            return False
        one = self.factor_form(card, operation.factor_1, card.factor(18))
        two = self.factor_form(card, operation.factor_2, card.factor(33))
        three = self.factor_form(card, operation.result, card.result())
        if operation.factor_2 == "array" and two and two.shape != "array":
            return True
        if operation.factor_2 == "searched" and two and two.shape not in ("array", "table"):
            return True
        if operation.result == "table?" and three and three.shape != "table":
            return True
        if operation.result == "table?" and two and three and two.shape in ("array", "table") and three.entries < two.entries:
            return True
        if operation.result in ("number", "value") and three and three.shape == "date":
            return True
        if operation.result == "number" and any(it and it.is_text for it in (one, two, three)):
            return True
        return bool(name in ("COMP", "LOKUP") and one and two and one.is_text != two.is_text)

    def bad_index(self, want, operand):
        name, index = operand
        form, field = self.form(name), self.form(index) if isinstance(index, str) else None
        if field and not (field.shape == "plain" and not field.is_text and field.decimals == 0):
            return True
        if not form:
            return False
        if index is None:
            return want in ("value", "number") and form.shape == "array"
        if form.shape != "array" or want == "array":
            return True
        if isinstance(index, int):
            return not 1 <= index <= form.entries
        return bool(want == "searched" and field and 10**field.length <= form.entries)

    def F5(self, at, card):
        return any(not isinstance(it, Form) and self.bad_index(want, it) for want, it in self.operands(card))

    def F6(self, at, card):
        return card.sheet == "E" and not 1 <= card.value(36, 39) <= 9999

    def use(self, card):
        if card.part(15, 15) == "I":
            return "secondary" if card.part(16, 16) == "S" else "primary"
        return "printer" if card.part(40, 46) == "PRINTER" else "disk"

    def is_input(self, card):
        return card.part(15, 15) == "I"

    def of_use(self, use):
        """The first file of a use."""
        return next((c for c in self.cards if c.sheet == "F" and self.use(c) == use), None)

    def forms(self):
        return [c for c in self.cards if c.sheet == "L"]

    def page(self):
        """The lines of a page: of the first L card that names the printer."""
        printer = self.of_use("printer")
        own = [c for c in self.forms() if printer and c.part(7, 14) == printer.part(7, 14)]
        return own[0].value(15, 17) if own else 66

    def bad_form(self, card):
        file = self.files.get(card.part(7, 14))
        return file is None or self.use(file) != "printer" or self.forms()[0] is not card or card.value(20, 22) > card.value(15, 17)

    def F7(self, at, card):
        if card.sheet == "F":
            before = [c for c in self.cards[:at] if c.sheet == "F"]
            most = 132 if self.use(card) == "printer" else 9999
            return (
                any(c.part(7, 14) == card.part(7, 14) or self.use(c) == self.use(card) for c in before)
                or not 1 <= card.value(24, 27) <= most
            )
        if card.sheet == "L":
            return self.bad_form(card)
        if card.sheet not in "IO" or card.is_field() or card.is_and() or (card.sheet == "O" and card.is_or()):
            return False
        name = card.part(7, 14)
        if not name:
            return card is self.first_head(card.sheet)
        file = self.files.get(name)
        return file is None or self.is_input(file) != (card.sheet == "I")

    def first_head(self, sheet):
        """The first record type, or the first line."""
        heads = (c for c in self.cards if c.sheet == sheet and not c.is_field() and not c.is_and() and not (sheet == "O" and c.is_or()))
        return next(heads, None)

    def F8(self, at, card):
        unset = ("L0", "1P", "MR")
        if card.sheet == "I" and card.is_field():
            marks = [card.part(it, it + 1) for it in (65, 67, 69)]
            return any(it in unset for it in marks) or (not card.part(52, 52) and bool(marks[0] or marks[1]))
        if card.sheet == "I" and not card.is_and():
            mark = card.part(19, 20)
            return bool(mark) and not re.fullmatch(r"\d\d|L[1-9R]|H[1-9]", mark)
        unmatched = () if self.has_match_fields() else ("MR",)
        if card.sheet == "C":
            return any(it in ("1P", *unmatched) for it in card.conditions(9)) or any(it in unset for it in card.shown())
        return card.sheet == "O" and any(it in unmatched for it in card.conditions(23))

    def has_match_fields(self):
        return any(c.sheet == "I" and c.is_field() and c.part(61, 62) for c in self.cards)

    def misses(self, want, operand):
        if not want:
            return operand is not None
        if operand is None:
            return not want.endswith("?")
        return want.startswith("name") and not is_name(operand)

    def bad_operation(self, card):
        operation = OPERATIONS.get(card.operation())
        if not operation:
            return True
        high, low, equal = (bool(it) for it in card.shown())
        count = high + low + equal
        bad_shown = {
            "any": False,
            "none": count > 0,
            "some": count == 0,
            "search": count == 0 or (high and low),
        }[operation.shown]
        searched = self.factor_form(card, operation.factor_2, card.factor(33)) if card.operation() == "LOKUP" else None
        unordered = searched and searched.shape in ("array", "table") and not searched.ascending and (high or low)
        return bool(
            self.misses(operation.factor_1, card.factor(18))
            or self.misses(operation.factor_2, card.factor(33))
            or self.misses(operation.result, card.result())
            or bad_shown
            or unordered
        )

    def F9(self, at, card):
        if card.sheet == "O":
            return self.bad_line(card)
        if card.sheet != "C":
            return False
        last, first = self.last_of[card.number], self.first_of[card.number]
        conditions = bool(card.conditions(9))
        if last is not first and not conditions:
            return True
        if last.operation() in LABELS and conditions:
            return True
        if card.value(49, 51) is not None and not card.result():
            return True
        if last is card:
            return self.bad_operation(card)
        return bool(card.part(18, 48) or card.value(49, 51) is not None or any(card.shown()))

    def bad_line(self, card):
        if card.is_field():
            bare = not card.part(38, 38) and not card.part(39, 39) and card.part(45, 70)
            return not card.part(32, 37) and not bare
        if card.is_and() or card.is_or():
            return False
        file = self.files.get(self.file_of[card.number])
        return file is not None and self.use(file) == "disk" and bool(card.part(17, 22))

    def goal(self, card):
        """What a GOTO or an EXSR leads to: its name, and what is given by that name."""
        operation = self.operation_of(card) if card.sheet == "C" else None
        if operation not in ("GOTO", "EXSR") or not is_name(card.factor(33)):
            return None
        return operation, self.label(card.factor(33)[0])

    def F10(self, at, card):
        goal = self.goal(card)
        return goal is not None and (goal[1] is None or goal[1][1] != (goal[0] == "EXSR"))

    def F11(self, at, card):
        if card.sheet != "C":
            return any(it[0] == name and it[3].number < card.number for name, _ in definitions_on(card) for it in self.given)
        defined = {name for c in self.cards[: at + 1] for name, _ in definitions_on(c)} | {"UDATE", "PAGE"}
        before = {it[0] for it in self.given if it[3].number < card.number}
        gives = [it[0] for it in self.given if it[3] is card]
        return any(it in before or it in defined for it in gives) or any(name in before for name, _ in definitions_on(card))

    def rank(self, card):
        control = card.part(7, 8)
        return 2 if control == "SR" else 0 if control == "" else 1

    def F12(self, at, card):
        if card.sheet in "IO":
            return self.strays(card)
        if card.sheet != "C":
            return False
        place = self.calculations.index(card)
        if card.joins():
            if place == 0:
                return True
            heads = []
        else:
            heads = [c for c in self.calculations[:place] if not c.joins()]
            if any(self.rank(c) > self.rank(card) for c in heads):
                return True
        last = self.last_of[card.number]
        control, operation = self.control(card), last.operation()
        if last is card and operation in ("BEGSR", "ENDSR"):
            if control != "SR" or self.unpaired(card, operation):
                return True
        outside = control == "SR" and operation not in ("BEGSR", "ENDSR") and self.section[last.number] is None
        return outside and self.first_of[card.number] is card

    def brackets(self):
        return [
            c
            for c in self.calculations
            if self.last_of[c.number] is c and self.control(c) == "SR" and c.operation() in ("BEGSR", "ENDSR")
        ]

    def unpaired(self, card, operation):
        brackets = self.brackets()
        place = brackets.index(card)
        if operation == "BEGSR":
            return place + 1 == len(brackets) or brackets[place + 1].operation() != "ENDSR"
        return place == 0 or brackets[place - 1].operation() != "BEGSR"

    def strays(self, card):
        of_sheet = [c for c in self.cards if c.sheet == card.sheet and c.number < card.number]
        follows = lambda c: c.is_and() or (c.sheet == "O" and c.is_or())
        if card.is_field():
            return not any(not c.is_field() and not follows(c) for c in of_sheet)
        return follows(card) and (not of_sheet or of_sheet[-1].is_field())

    def F13(self, at, card):
        goal = self.goal(card)
        if goal is None or goal[0] != "GOTO" or goal[1] is None or goal[1][1]:
            return False
        here, there = self.section[card.number], goal[1][2]
        return here is not None and there is not None and here != there

    def F14(self, at, card):
        """A call in a subroutine that the one called is, or leads back to."""
        call = next((it for it in self.calls if it[0] is card), None)
        if call is None or not isinstance(call[1], int):
            return False
        called = self.subroutine(call[2])
        seen, left = set(), [called]
        while left:
            it = left.pop()
            if it == call[1] and it is not None:
                return True
            if it is None or it in seen:
                continue
            seen.add(it)
            left += [self.subroutine(name) for _, section, name in self.calls if section == it]
        return False

    def subroutine(self, name):
        given = self.label(name)
        return given[2] if given and given[1] and isinstance(given[2], int) else None

    def F15(self, at, card):
        if card.sheet != "C":
            return False
        operation = self.operation_of(card)
        if card.part(53, 53) == "H" and not (operation in OPERATIONS and OPERATIONS[operation].rounds):
            return True
        if operation != "MVR":
            return False
        place = self.calculations.index(card)
        if card.joins() or place == 0:
            return True
        before = self.calculations[place - 1]
        return before.operation() != "DIV" or before.part(53, 53) == "H"

    # ---- F16: columns

    def record_length(self, card):
        file = self.files.get(self.file_of[card.number])
        return file.value(24, 27) if file else None

    def F16(self, at, card):
        if card.sheet == "I":
            if card.is_field():
                return self.bad_columns(card) or self.joins_too_long(card) or self.bad_match(card)
            return self.bad_codes(card) or (not card.is_and() and (self.has_other_lengths(card) or self.matches_otherwise(card)))
        if card.sheet != "O" or card.is_and() or card.is_or():
            return False
        if not card.is_field():
            return self.skips_past(card)
        end, length, width = card.value(40, 43), self.record_length(card), self.width(card)
        return end == 0 or (length is not None and end > length) or (width is not None and width > end)

    def skips_past(self, card):
        """A line of the printer that skips past the page."""
        file = self.files.get(self.file_of[card.number])
        skips = [it for it in (card.part(19, 20), card.part(21, 22)) if it]
        lines = [int(it.replace("A", "10").replace("B", "11")) for it in skips]
        return file is not None and self.use(file) == "printer" and any(it > self.page() for it in lines)

    def bad_columns(self, card):
        first, last, length = card.value(44, 47), card.value(48, 51), self.record_length(card)
        return first == 0 or last == 0 or last < first or (length is not None and last > length)

    def bad_codes(self, card):
        length = self.record_length(card)
        for at in (21, 28, 35):
            if self.part_of_code(card, at):
                position = card.value(at, at + 3)
                if position == 0 or (length is not None and position > length):
                    return True
        return False

    def part_of_code(self, card, at):
        return card.part(at, at + 6)

    def types(self):
        """Record types with their fields."""
        found = []
        for c in self.cards:
            if c.sheet != "I":
                continue
            if c.is_field():
                if found:
                    found[-1][1].append(c)
            elif not c.is_and():
                found.append((c, []))
        return found

    def columns(self, field):
        """How many columns a field has; 0 where they are bad by themselves."""
        first, last = field.value(44, 47), field.value(48, 51)
        return 0 if first == 0 or last < first else last - first + 1

    def joins_too_long(self, card):
        level = card.part(59, 60)
        if not level:
            return False
        fields = next((fields for _, fields in self.types() if card in fields), [])
        before = [f for f in fields if f.number < card.number and f.part(59, 60) == level]
        so_far = sum(self.columns(f) for f in before)
        return so_far <= 256 < so_far + self.columns(card)

    def bad_match(self, card):
        """A match level that its type has before, or the field by which the type's match fields pass 256 columns."""
        level = card.part(61, 62)
        if not level:
            return False
        fields = next((fields for _, fields in self.types() if card in fields), [])
        before = [f for f in fields if f.number < card.number and f.part(61, 62)]
        so_far = sum(self.columns(f) for f in before)
        return any(f.part(61, 62) == level for f in before) or so_far <= 256 < so_far + self.columns(card)

    def match_lengths(self, fields):
        """The columns of each match level of a type, if it has some; None where one is bad or there twice."""
        own = [(f.part(61, 62), self.columns(f)) for f in fields if f.part(61, 62)]
        is_left_out = any(n == 0 for _, n in own) or len({level for level, _ in own}) < len(own)
        return dict(own) if own and not is_left_out else None

    def matches_otherwise(self, card):
        types = self.types()
        place = next(i for i, (c, _) in enumerate(types) if c is card)
        before = [self.match_lengths(fields) for _, fields in types[:place]]
        first, own = next((it for it in before if it), None), self.match_lengths(types[place][1])
        return bool(first and own and first != own)

    def joined(self, fields, level):
        own = [self.columns(f) for f in fields if f.part(59, 60) == level]
        return sum(own) if own and 0 not in own else None

    def has_other_lengths(self, card):
        types = self.types()
        place = next(i for i, (c, _) in enumerate(types) if c is card)
        for level in (f"L{n}" for n in range(1, 10)):
            before = [self.joined(fields, level) for _, fields in types[:place]]
            first, own = next((n for n in before if n is not None), None), self.joined(types[place][1], level)
            if first is not None and own is not None and first != own:
                return True
        return False

    def width(self, card):
        """How many places a field or a constant takes; None where its form isn't known, or its code or word doesn't fit."""
        text, code = card.part(45, 70), card.part(38, 38)
        if not card.part(32, 37):
            return len(text[1:-1].replace("''", "'")) if text and not code else None
        name = entry(card.part(32, 37))[0]
        form = self.form(name)
        if not form or self.F17(None, card):
            return None
        if form.is_text:
            return form.length if not code and not text else None
        if not code and text:
            return len(text[1:-1].replace("''", "'"))
        if code == "Y":
            return 8
        if not code or code in "XZ":
            return form.length
        whole = form.length - form.decimals
        commas = (whole - 1) // 3 if code in "12ABJK" and whole > 0 else 0
        sign = 2 if code in "ABCD" else 1 if code in "JKLM" else 0
        return form.length + commas + (form.decimals > 0) + sign + (text == "'$'")

    # ---- F17: editing

    def F17(self, at, card):
        if card.sheet != "O" or not card.is_field() or not card.part(32, 37):
            return False
        text, code = card.part(45, 70), card.part(38, 38)
        form = self.form(entry(card.part(32, 37))[0])
        if code and text:
            if text not in ("'*'", "'$'") or code in "XYZ":
                return True
        if not form:
            return False
        if form.is_text:
            return bool(code or text)
        if code:
            return code == "Y" and (form.length, form.decimals) != (6, 0)
        return bool(text) and bad_word(text[1:-1].replace("''", "'"), form.length)

    # ---- F18: data

    def F18(self, at, card):
        if card.sheet != "E":
            return False
        per_card = card.value(33, 35)
        if per_card is None:
            return any(name.startswith("TAB") for name, *_ in tables_on(card))
        wanting = [c for c in self.cards[:at] if c.sheet == "E" and c.value(33, 35) is not None]
        if len(self.decks) <= len(wanting):
            return True
        if any(form is None for _, form in definitions_on(card)):
            return False
        if per_card == 0 or per_card * sum(length for _, length, *_ in tables_on(card)) > 80:
            return True
        data, entries = self.decks[len(wanting)][1], card.value(36, 39)
        if len(data) != -(-entries // per_card):
            return True
        return self.bad_data(card, data, per_card, entries)

    def bad_data(self, card, data, per_card, entries):
        tables = tables_on(card)
        both = sum(length for _, length, *_ in tables)
        start = 0
        for _, length, decimals, ascending in tables:
            texts = [line[i * both + start : i * both + start + length] for line in data for i in range(per_card)][:entries]
            start += length
            values = texts if decimals is None else [zoned(text) for text in texts]
            if None in values or (ascending and any(a > b for a, b in zip(values, values[1:]))):
                return True
        return False

    def stray_decks(self):
        wanting = sum(c.sheet == "E" and c.value(33, 35) is not None for c in self.cards)
        return [(number, "F18") for number, _ in self.decks[wanting:]]

    def all(self):
        found = []
        if not self.of_use("primary"):
            found.append((0, "F7"))
        for at, card in enumerate(self.cards):
            found += [(card.number, code) for code in (f"F{n}" for n in range(1, 19)) if getattr(self, code)(at, card)]
        return found + self.stray_decks()


def is_name(operand):
    return operand is not None and not isinstance(operand, Form) and operand[1] is None


def bad_word(word, digits):
    stop = next((i for i, c in enumerate(word) if c in "0*"), None)
    places = [i for i, c in enumerate(word) if c == " " or i == stop]
    return len(word) > 24 or len(places) != digits or (stop is not None and stop > 0 and word[stop - 1] == "$")


def zoned(text):
    """The value of a number as a record has it; None if it isn't one."""
    digits = text.replace(" ", "0")
    last, sign = digits[-1], 1
    if last in "}JKLMNOPQR":
        last, sign = str("}JKLMNOPQR".index(last)), -1
    elif last in "{ABCDEFGHI":
        last = str("{ABCDEFGHI".index(last))
    digits = digits[:-1] + last
    return sign * int(digits) if digits.isdigit() else None


def wanted_of(source):
    """The pairs of a card and a code, in their order."""
    return sheet_faults(source) or Rules(source).all()
