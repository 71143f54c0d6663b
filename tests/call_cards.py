"""Lines of single cards, beside what rpg2 reads."""

import re

from call import Call, escaped
from call_sources import INPUT, LINE, MOVE, PRINT, TYPE, Desk, card, row_of, with_text
from outcome import Outcome

FAULT = re.compile(r"source:(\d+):(\d+): error: .* \[(S\d)\]\n(?: +\| .*\n *\d+ \| .*\n +\| +(\^+))?")


def columns_of(first: str, marks: str) -> str:
    return first if len(marks) == 1 else f"{first}-{int(first) + len(marks) - 1}"


def shown_columns(desk: Desk, calls: list[Call]) -> list[Outcome]:
    """`with`: the columns of the least bad value of each card, which are in one source."""
    desk.give(with_text(it.given, int(it.words[1]), it.words[2]) for it in calls)
    _, errors = desk.asked("check", "source", "--faults", "65535")
    told = {int(it[1]): columns_of(it[2], it[4] or "") for it in FAULT.finditer(errors) if it[3] == "S5"}
    return [it.told(told.get(number, "read")) for number, it in enumerate(calls, 1)]


def came_of_cards(desk: Desk, call: Call) -> str:
    """`cards`: how many cards a source has, or the first fault of its sheets."""
    desk.put("source", escaped(call.words[1]))
    line, errors = desk.asked("check", "source")
    fault = re.match(r"card (\d+): (S\d)\n", line)
    if fault is None:
        return re.search(r"^source: (\d+) card", desk.asked("list", "source")[0])[1]
    at = next(it for it in FAULT.finditer(errors) if it[1] == fault[1])
    return f"card {fault[1]}: {fault[2]}" + (f" at {columns_of(at[2], at[4])}" if fault[2] == "S5" else "")


def indicator(number: str) -> str:
    """An indicator's two characters, by its number."""
    names = ["L0", *(f"L{it}" for it in range(1, 10)), "LR", "1P"] + [f"O{it}" for it in "ABCDEFGV"] + [f"H{it}" for it in range(1, 10)] + ["MR"]
    return f"{int(number):02}" if int(number) < 100 else names[int(number) - 100]


def came_of_literal(desk: Desk, call: Call) -> str:
    """`literal`: the constant that stands in columns 33 to 42 of a C card."""
    listing = desk.listing([INPUT, PRINT, TYPE, with_text(MOVE, 33, call.words[1])])
    row = row_of(listing, "CONSTANTS AND EDIT WORDS", "#4") or row_of(listing, "CONSTANTS AND EDIT WORDS", "#3")
    if it := re.search(r"constant number (\d+)\.(\d)  +(-?)(\d*)\.?(\d*) ", row):
        return f"{int(it[3] + it[4] + it[5])} {it[1]}.{it[2]}"
    it = re.search(r"constant text (\d+)  +'(.*)' ", row)
    return f'"{it[2].replace(chr(39) * 2, chr(39))}"' if it else listing


def came_of_condition(desk: Desk, call: Call) -> str:
    """`condition`: what columns 9 to 11 of a C card ask."""
    listing = desk.listing([INPUT, PRINT, TYPE, with_text(MOVE, 9, call.words[1])])
    rows = re.findall(r"^  (\w\w)  .* 4(N?)$", listing.partition("\nINDICATORS\n")[2], re.M)
    return " ".join(("not " if negated else "") + name for name, negated in rows) or "none"


def came_of_code(desk: Desk, call: Call) -> str:
    """`code`: the first code of a record type, in columns 21 to 27 of an I card."""
    listing = desk.listing([INPUT, PRINT, with_text(TYPE, 21, call.words[1])])
    it = re.search(r"^ +3  column (\d+) (is|isn't) '(.*)'$", listing, re.M)
    return f'{it[1]}{" not" if it[2] != "is" else ""} "{it[3][-1]}"' if it else listing


def came_of_constant(desk: Desk, call: Call) -> str:
    """`constant`: the constant of an O card, in columns 45 to 70."""
    listing = desk.listing([INPUT, PRINT, TYPE, LINE, with_text(card("O", _40="   4"), 45, call.words[1])])
    it = re.search(r"^ +5 +\S*-4 +(?:'(.*)')?$", listing, re.M)
    return f'"{(it[1] or "").replace(chr(39) * 2, chr(39))}"' if it else listing


def came_of_indicator(desk: Desk, call: Call) -> str:
    """`indicator`: what a record type turns on, in columns 19 and 20 of an I card."""
    listing = desk.listing([INPUT, PRINT, with_text(TYPE, 19, call.words[1])])
    it = re.search(r"card 3, turns on (\w\w)$", listing, re.M)
    return it[1] if it else listing


def came_of_entry(desk: Desk, call: Call) -> str:
    """`entry`: the entry in columns 33 to 42 of a C card, of a field, or of an array of 9,999 entries."""
    name, comma, index = call.words[1].partition(",")
    named = [card("I", _44="   1", _48="   3", _53=it) for it in (index if index[:1].isalpha() else "", "" if comma else name) if it]
    arrays = [card("E", _27=name, _36="9999", _40="  3")] if comma else []
    moved = with_text(with_text(MOVE, 33, call.words[1]), 49, "  3")
    shown = desk.shown([INPUT, PRINT, *arrays, TYPE, *(with_text(it, 52, "0" if comma else " ") for it in named), moved])
    it = re.search(r" MOVE   \S+ (\S+) +#\d+ RESULT$", shown, re.M)
    return it[1].replace(",", " at ") if it else shown


def came_of_control(desk: Desk, call: Call) -> str:
    """`control`: where columns 7 and 8 of a C card put a calculation: alone, after a card with a condition, or in a subroutine."""
    move = with_text(with_text(MOVE, 33, "'A'"), 49, "  1")
    following = [card("C", _9=" 01"), with_text(with_text(move, 7, call.words[1]), 9, "N02")]
    inside = [card("C", _7="SR", _18="S", _28="BEGSR"), with_text(move, 7, call.words[1]), card("C", _7="SR", _28="ENDSR")]
    shown = ""
    for cards in ([with_text(move, 7, call.words[1])], following, inside):
        shown = shown or desk.shown([INPUT, PRINT, TYPE, *cards])
    detail, _, rest = shown.partition("TOTAL CALCULATIONS")
    total, _, subroutines = rest.partition("SUBROUTINES")
    if "MOVE" in subroutines:
        return "subroutine"
    if "MOVE" in total:
        level = re.search(r"unless (\w\w)$", total, re.M)
        return f"total {level[1] if level else 'L0'}"
    return "or" if "when 01" in detail else "and" if "unless 01" in detail else "detail"


CAME = {
    "cards": came_of_cards,
    "literal": came_of_literal,
    "entry": came_of_entry,
    "control": came_of_control,
    "condition": came_of_condition,
    "code": came_of_code,
    "constant": came_of_constant,
    "indicator": came_of_indicator,
}


def shown_card(desk: Desk, call: Call) -> Outcome:
    """A call of one card. Of an indicator the line has the number, and rpg2 its two characters."""
    came, number = CAME[call.words[0]](desk, call), re.search(r"\d+$", call.answer)
    if call.words[0] in ("control", "condition", "indicator") and number and came.endswith(indicator(number[0])):
        came = came[:-2] + number[0]
    return call.told(came)
