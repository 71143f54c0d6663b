#!/usr/bin/env python3
"""Writes sources of many cards, which show what compiling costs.

usage: bench/sources.py KIND CARDS > SOURCE
    names       input fields with a new name each, and as many output fields that name them
    literals    calculations with a pair of new literals each, all on one result field; past 960 cards output fields with new constants
    both        calculations with a pair of new literals and a new result field each; then output fields with new constants
    constants   output fields with a new constant each
    plain       calculations without a literal, all on one result field; then output fields that put it out
    labels      a GOTO, then a TAG for each, with a new label each; then output fields
    groups      calculations of five cards each, of which two are OR cards; then output fields
    calls       subroutines that each call the next ones; then output fields
    entries     calculations over an array by an index; then output fields that put its entries out
    levels      record types of codes, AND cards and control fields of all nine levels; then output fields
    data        tables with alternating ones, and their cards of data; then output fields
    group       one calculation of as many AN and OR cards as there is room for; then output fields
    decks       arrays, each with one card of data of its own; then output fields
    no-files    record types and lines that name files which no card has
    no-uses     F cards with a new name each, of uses that are taken, and record types that name files which no card has
    no-data     arrays whose data are missing
    no-labels   jumps to labels that no card gives
    no-ends     subroutines without an end, each in the one before it
    FAULT-N     cards that have the fault with the code FN, for N from 1 to 18
    SHEET-X     cards of the sheet X (H, F, E, L, I, C, O), or of data (D), as full as they can be, of which only the last can't be read
The sources with `no-` and `FAULT-` have a fault on nearly each card, except FAULT-6, where only the card that exceeds a limit has one, the others up to SHEET-X none.
CARDS counts all cards of the source. A program has at most 4,000 fields and constants, 1,000 calculations, 100 subroutines, and 200 fields a line.
"""

import sys

CALCULATIONS = 960
FIELDS_OF_A_LINE = 150
FIELDS_OF_A_TYPE = 400
LETTERS = "ABCDEFGHIJKLMNOPQRSTUVWXYZ"


def card(form_type, *values):
    """A card on a sheet: values with the column that each begins in."""
    columns = [" "] * 80
    columns[5] = form_type
    for column, text in values:
        columns[column - 1 : column - 1 + len(text)] = text
    return "".join(columns).rstrip()


def name(number):
    """A name of six characters, another one for each number."""
    letters = ""
    for _ in range(5):
        letters = LETTERS[number % 26] + letters
        number //= 26
    return "N" + letters


def calculation(kind, number):
    """An addition: of two new literals or of a field, into a new result field or into the same one."""
    operands = (str(2 * number), str(2 * number + 1)) if kind in ("literals", "both") else ("COUNT", "COUNT")
    result = name(number) if kind == "both" else "SUM"
    values = [(18, operands[0]), (28, "ADD"), (33, operands[1]), (43, result)]
    if kind == "both" or number == 0:
        values += [(49, "  7"), (52, "0")]
    return card("C", *values)


def labels(cards):
    """As many labels as there is room for, each with a GOTO, all of these first."""
    pairs = min(cards, CALCULATIONS) // 2
    for number in range(pairs):
        yield card("C", (10, "01"), (28, "GOTO"), (33, name(number)))
    for number in range(pairs):
        yield card("C", (18, name(number)), (28, "TAG"))


def groups(cards):
    """Calculations with three alternatives of one, two and two cards."""
    for number in range(min(cards, CALCULATIONS) // 5):
        for level, indicator in (("", " 01"), ("OR", " 02"), ("AN", "N03"), ("OR", " 04")):
            yield card("C", (7, level), (9, indicator))
        values = [(7, "AN"), (9, " 05"), (18, "COUNT"), (28, "ADD"), (33, "COUNT"), (43, "SUM")]
        yield card("C", *values, *([(49, "  7"), (52, "0")] if number == 0 else []))


def calls(cards):
    """Subroutines that each call up to eight of the next ones, the first called at detail time."""
    bodies = min(99, min(cards, CALCULATIONS) // 10)
    yield card("C", (28, "EXSR"), (33, name(0)))
    for number in range(bodies):
        yield card("C", (7, "SR"), (18, name(number)), (28, "BEGSR"))
        for callee in range(number + 1, min(number + 8, bodies)):
            yield card("C", (7, "SR"), (28, "EXSR"), (33, name(callee)))
        yield card("C", (7, "SR"), (28, "ENDSR"))


def entries(cards):
    """Sums of entries of an array, by a literal index and by a field."""
    for number in range(min(cards, CALCULATIONS)):
        index = "COUNT" if number % 2 else str(number % 999 + 1)
        values = [(28, "ADD"), (33, "AR," + index), (43, "SUM")]
        yield card("C", *values, *([(49, "  7"), (52, "0")] if number == 0 else []))


def levels(cards):
    """Record types of six codes and nine control fields, of one length in all of them."""
    for number in range(min(190, cards // 11)):
        codes = [(21 + 7 * i, "%4d CA" % (i + 1)) for i in range(3)]
        yield card("I", (7, "INPUT"), (15, "AA"), (19, "%02d" % (number % 99 + 1)), *codes)
        yield card("I", (14, "AND"), *codes)
        for level in range(1, 10):
            yield card("I", (44, "%4d" % level), (48, "%4d" % level), (53, "L%d" % level), (59, "L%d" % level))


def group(cards):
    """A calculation under as many conditions as there is room for, by AN and OR in turn."""
    for number in range(min(cards, CALCULATIONS) - 1):
        yield card("C", (7, ("OR", "AN")[number % 2] if number else ""), (9, " 01N02 03"))
    yield card("C", (7, "AN"), (9, " 05"), (18, "COUNT"), (28, "ADD"), (33, "COUNT"), (43, "SUM"), (49, "  7"), (52, "0"))


def arrays(cards):
    """E cards, each of an array that needs a card of data."""
    for number in range(cards // 4):
        yield card("E", (27, name(number)), (33, " 10"), (36, "  10"), (40, "  5"), (44, "0"))


def decks(cards):
    """The data of these arrays."""
    for number in range(cards // 4):
        yield "**"
        yield "".join("%05d" % (number + i) for i in range(10))


def no_files(cards):
    """Record types and lines of files that aren't there."""
    for number in range(cards // 2):
        yield card("I", (7, name(number)), (15, "AA"), (19, "01"))
    for number in range(cards - cards // 2):
        yield card("O", (7, name(number)), (15, "D"), (23, " 01"))


def no_uses(cards):
    """Further input files, and record types of files that aren't there."""
    for number in range(cards // 2):
        yield card("F", (7, name(number)), (15, "IPE"), (19, "F"), (24, "  80"), (40, "DISK40"))
    for number in range(cards - cards // 2):
        yield card("I", (7, name(number) + "X"), (15, "AA"), (19, "01"))


def no_data(cards):
    """Arrays that need data."""
    for number in range(cards):
        yield card("E", (27, name(number)), (33, " 10"), (36, "  10"), (40, "  5"), (44, "0"))


def no_labels(cards):
    """Jumps to labels that aren't there."""
    for number in range(cards):
        yield card("C", (28, "GOTO"), (33, name(number)))


def no_ends(cards):
    """Subroutines without an end, which are all called."""
    for number in range(cards // 2):
        yield card("C", (28, "EXSR"), (33, name(number)))
    for number in range(cards - cards // 2):
        yield card("C", (7, "SR"), (18, name(number)), (28, "BEGSR"))


def self_calls(cards):
    """A subroutine that calls itself."""
    yield card("C", (7, "SR"), (18, "SUB"), (28, "BEGSR"))
    for _ in range(cards - 2):
        yield card("C", (7, "SR"), (28, "EXSR"), (33, "SUB"))
    yield card("C", (7, "SR"), (28, "ENDSR"))


def jumps_away(cards):
    """Jumps to a label of another section."""
    for _ in range(cards - 1):
        yield card("C", (28, "GOTO"), (33, "AWAY"))
    yield card("C", (7, "LR"), (18, "AWAY"), (28, "TAG"))


def detail_after_total(cards):
    """Detail calculations after a total calculation."""
    for number in range(cards):
        yield card("C", (7, "" if number else "LR"), (28, "Z-ADD"), (33, "COUNT"), (43, "COUNT"))


# For each N a card with the fault FN; n makes its name unique.
FAULTY_CARDS = {
    1: lambda n: card("C", (28, "Z-ADD"), (33, name(n)), (43, "COUNT")),
    2: lambda n: card("C", (28, "Z-ADD"), (33, "COUNT"), (43, "COUNT"), (49, "  7"), (52, "0")),
    3: lambda n: card("C", (28, "Z-ADD"), (33, "COUNT"), (43, name(n)), (49, " 16"), (52, "0")),
    4: lambda n: card("C", (28, "Z-ADD"), (33, "COUNT"), (43, "WORD")),
    5: lambda n: card("C", (28, "Z-ADD"), (33, "AR"), (43, "COUNT")),
    6: lambda n: card("C", (28, "MOVE"), (33, "WORD"), (43, name(n)), (49, "256")),
    8: lambda n: card("I", (7, "INPUT"), (15, "AA"), (19, "L0")),
    9: lambda n: card("C", (33, "COUNT"), (43, "COUNT")),
    11: lambda n: card("C", (18, "TWICE"), (28, "TAG")),
    15: lambda n: card("C", (28, "MOVE"), (33, "COUNT"), (43, "COUNT"), (53, "H")),
    16: lambda n: card("I", (44, "  81"), (48, "  85"), (52, "0"), (53, name(n))),
    17: lambda n: card("O", (32, "COUNT"), (40, " 120"), (45, "'  '")),
}

# For each N cards that have the fault FN only together.
FAULTY_GROUPS = {7: no_files, 10: no_labels, 12: detail_after_total, 13: jumps_away, 14: self_calls, 18: no_data}


def fault(code, cards):
    """Cards with this fault, after those of the fields that they use."""
    if code in (7, 18):
        yield from FAULTY_GROUPS[code](cards)
        return
    yield card("E", (27, "AR"), (36, "  10"), (40, "  5"), (44, "0"))
    yield card("I", (7, "INPUT"), (15, "AA"), (19, "01"))
    yield card("I", (44, "   1"), (48, "   5"), (52, "0"), (53, "COUNT"))
    yield card("I", (44, "   6"), (48, "  10"), (53, "WORD"))
    if code == 17:
        yield card("O", (7, "PRINT"), (15, "D"), (23, " 01"))
    left = cards - (5 if code == 17 else 4)
    if code in FAULTY_GROUPS:
        yield from FAULTY_GROUPS[code](left)
    else:
        yield from map(FAULTY_CARDS[code], range(left))


FULL = {
    "H": [(7, "PROGRAM")],
    "F": [(7, "FILENAME"), (15, "O"), (18, "A"), (19, "F"), (24, "9999"), (33, "OF"), (40, "PRINTER")],
    "E": [(27, "TABLES"), (33, " 80"), (36, "9999"), (40, "  1"), (44, "0A"), (46, "OTHERS"), (52, "  1"), (56, "0A")],
    "L": [(7, "FILENAME"), (15, "112FL112OL")],
    "I": [(44, "1234"), (48, "1248"), (52, "2"), (53, "AMOUNT"), (59, "L1"), (65, "010203")],
    "C": [(7, "L1"), (9, "N01N02N03"), (18, "ARRAYS,INX"), (28, "ADD"), (33, "-1234567.9"), (43, "RESULT"), (49, " 15"), (52, "9H"), (54, "010203")],
    "O": [(23, "N01N02N03"), (32, "AMOUNT"), (38, " B1234"), (45, "'  ,   ,   .  - *TEXTS'")],
}


def sheet(form_type, cards):
    """Full cards of one sheet, or of data, and one with a character that no card has."""
    full = "8" * 80 if form_type == "D" else card(form_type, *FULL[form_type])
    if form_type == "D":
        yield "**"
    for _ in range(cards - 1 - (form_type == "D")):
        yield full
    yield full + "\t"


def tables(cards):
    """E cards, each of a table with an alternating one."""
    for number in range(min(100, cards // 12)):
        name_of_table, alternating = "TAB" + name(number)[-3:], "T" + name(number)[-4:]
        values = [(27, name_of_table), (33, "  8"), (36, "  64"), (40, "  4"), (44, "0"), (45, "A")]
        yield card("E", *values, (46, alternating), (52, "  6"), (56, "2"))


def data(cards):
    """The data of these tables: eight cards of eight pairs after each `**` card."""
    for _ in range(min(100, cards // 12)):
        yield "**"
        for line in range(8):
            yield "".join("%04d%06d" % (8 * line + i, 37 * i) for i in range(8))


def output_field(kind, number):
    """An output field: a new constant, or a field by its name."""
    if kind in ("literals", "both", "constants"):
        return card("O", (40, " 120"), (45, "'TEXT %d'" % number))
    if kind == "entries":
        return card("O", (32, "AR,%d" % (number % 999 + 1)), (40, " 120"))
    if kind in ("labels", "calls", "levels", "data", "decks"):
        return card("O", (32, "COUNT"), (40, " 120"))
    return card("O", (32, name(number) if kind == "names" else "SUM"), (40, " 120"))


# The cards between the first input fields and the lines.
WHOLE = {"labels": labels, "groups": groups, "calls": calls, "entries": entries, "levels": levels, "group": group}

# After two files, where nearly each card has a fault.
FAULTY = {"no-files": no_files, "no-uses": no_uses, "no-data": no_data, "no-labels": no_labels, "no-ends": no_ends}


def extension(kind, cards):
    """The E cards of a source."""
    if kind == "entries":
        return [card("E", (27, "AR"), (36, " 999"), (40, "  7"), (44, "0"))]
    if kind == "decks":
        return list(arrays(cards))
    return list(tables(cards)) if kind == "data" else []


def after_sheets(kind, cards):
    """The data of a source."""
    if kind == "decks":
        return list(decks(cards))
    return list(data(cards)) if kind == "data" else []


def files():
    """The input file and the printer."""
    yield card("F", (7, "INPUT"), (15, "IPE"), (19, "F"), (24, "  80"), (40, "DISK40"))
    yield card("F", (7, "PRINT"), (15, "O"), (19, "F"), (24, " 132"), (40, "PRINTER"))


def source(kind, cards):
    """The lines of a source."""
    if kind.startswith("SHEET-"):
        yield from sheet(kind[-1], cards)
        return
    yield from files()
    if kind in FAULTY:
        yield from FAULTY[kind](cards - 2)
        return
    if kind.startswith("FAULT-"):
        yield from fault(int(kind[len("FAULT-") :]), cards - 2)
        return
    before = extension(kind, cards)
    yield from before
    yield card("I", (7, "INPUT"), (15, "AA"), (19, "01"))
    yield card("I", (44, "   1"), (48, "   5"), (52, "0"), (53, "COUNT"))
    following = after_sheets(kind, cards)
    left = cards - 4 - len(before) - len(following)
    if kind == "names":
        fields = (left - left // 2 // FIELDS_OF_A_LINE - left // 2 // FIELDS_OF_A_TYPE) // 2
        for number in range(fields):
            if number % FIELDS_OF_A_TYPE == FIELDS_OF_A_TYPE - 1:
                yield card("I", (7, "INPUT"), (15, "AA"), (19, "02"))
                left -= 1
            yield card("I", (44, "   1"), (48, "   5"), (52, "0"), (53, name(number)))
        left -= fields
    elif kind in WHOLE:
        lines = list(WHOLE[kind](left))
        yield from lines
        left -= len(lines)
    elif kind not in ("constants", "data", "decks"):
        for number in range(min(left, CALCULATIONS)):
            yield calculation(kind, number)
        left -= CALCULATIONS
    number = 0
    while left > 1:
        yield card("O", (7, "PRINT" if number == 0 else ""), (15, "D"), (23, " 01"))
        fields = min(left - 1, FIELDS_OF_A_LINE)
        for _ in range(fields):
            yield output_field(kind, number)
            number += 1
        left -= fields + 1
    yield from following


def main():
    kind, cards = sys.argv[1], int(sys.argv[2])
    for line in source(kind, cards):
        print(line)


if __name__ == "__main__":
    main()
