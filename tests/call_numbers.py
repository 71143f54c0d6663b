"""Lines of numbers and texts, and how numbers are edited, beside what jobs of rpg2 print."""

import re
from collections.abc import Iterable, Sequence
from dataclasses import dataclass
from decimal import Decimal

from call import Call, unread
from call_sources import INPUT, LINE, PRINT, TYPE, Desk, card, with_text
from outcome import Outcome

END = 60  # where an edited number ends in its line
GROUND = "~" * 24  # what stands below it, so that each of its blanks shows
CODES = "1234ABCDJKLM"


def edited_line(size: str, how: tuple[str, ...]) -> list[str]:
    """The cards of a line that prints the number on a ground: `plain`, `code J`, `code 1 *` or `word` and the word."""
    code, text = (how[1], how[2] if how[2:] else "") if how[0] == "code" else (" ", how[1] if how[0] == "word" else "")
    field = card("O", _32="N", _38=code, _40=f"{END:4}", _45="'" + text.replace("'", "''") + "'" if text else "")
    ground = [card("O", _40=f"{it:4}", _45=f"'{GROUND}'") for it in (END - 20, END + 4)]
    return [LINE, *ground, field]


def edits(size: str, hows: Iterable[tuple[str, ...]]) -> list[str]:
    """A source that prints the number of its records, so many digits and decimals, in each of these ways."""
    length, decimals = size.split(".")
    number = card("I", _44="   1", _48=f"{length:>4}", _52=decimals, _53="N")
    lines = [it for how in hows for it in edited_line(size, how)]
    return [INPUT, PRINT, with_text(TYPE, 19, "01"), number, *lines]


def zoned(number: str, size: str) -> str:
    """The number as a record has it: its sign above the last digit."""
    length = int(size.split(".")[0])
    digits = number.lstrip("-").replace(".", "").rjust(length, "0")[-length:]
    return digits[:-1] + "}JKLMNOPQR"[int(digits[-1])] if number.startswith("-") else digits


def printed(desk: Desk, size: str, hows: list[tuple[str, ...]], calls: list[Call]) -> list[list[str]]:
    """The texts of each call's number, in each of these ways."""
    lines = desk.print_of(edits(size, hows), (zoned(it.words[1], size) for it in calls))
    texts = [it.strip(" ").strip("~") for it in lines if it]
    return [texts[at : at + len(hows)] for at in range(0, len(hows) * len(calls), len(hows))]


def shown_texts(desk: Desk, calls: list[Call]) -> list[Outcome]:
    """`edit`: numbers of one size, edited in one way."""
    size, how = calls[0].words[2], calls[0].words[3:]
    texts = printed(desk, size, [how], calls)
    return [it.told(f'"{"".join(text)}"') for it, text in zip(calls, texts, strict=True)]


def shown_by_codes(desk: Desk, calls: list[Call]) -> list[Outcome]:
    """`edit_by_codes`: numbers of one size by the codes 1 to 4, A to D and J to M, with one fill."""
    size, fill = calls[0].words[2], calls[0].words[3:]
    texts = printed(desk, size, [("code", it, *fill) for it in CODES], calls)
    return [it.told(f"|{'|'.join(text)}|") for it, text in zip(calls, texts, strict=True)]


def shown_width(desk: Desk, call: Call) -> Outcome:
    """`width`: the places that a number takes."""
    listing = desk.listing(edits(call.words[1], [call.words[2:]]))
    it = re.search(rf"^ +8 +(\d+)-{END} ", listing, re.M)
    return call.told(str(END - int(it[1]) + 1) if it else listing)


def shown_fit(desk: Desk, call: Call) -> Outcome:
    """`parse`: whether an edit word is one for so many digits."""
    desk.give(edits(f"{call.words[2]}.0", [("word", call.words[1])]))
    line, _ = desk.asked("check", "source")
    return call.told({"no fault\n": "fits", "card 8: F17\n": "refused"}.get(line, line))


@dataclass(frozen=True)
class Operand:
    """A field of a record: what stands there, and its decimals, of which a text has none."""

    text: str
    decimals: str


def operand(word: str, is_text: bool) -> Operand:
    if is_text:
        return Operand(word, " ")
    whole, _, fraction = word.lstrip("-").partition(".")
    digits = (whole + fraction).lstrip("0") if fraction else whole
    size = f"{max(len(digits), len(fraction))}.{len(fraction)}"
    return Operand(zoned(word, size), str(len(fraction)))


def value_of(text: str, decimals: int) -> Decimal:
    """A number as a record has it."""
    last = "}JKLMNOPQR".find(text[-1])
    digits = text if last < 0 else f"-{text[:-1]}{last}"
    return Decimal(int(digits)).scaleb(-decimals)


def does(desk: Desk, operands: list[Operand], cards: list[str], lines: list[str]) -> list[str]:
    """What a job prints whose one record has these fields: A, B."""
    fields, at = [], 1
    for name, it in zip("AB", operands):
        fields.append(card("I", _44=f"{at:4}", _48=f"{at + len(it.text) - 1:4}", _52=it.decimals, _53=name))
        at += len(it.text)
    source = [INPUT, PRINT, with_text(TYPE, 19, "01"), *fields, *cards, LINE, *lines]
    return desk.print_of(source, ["".join(it.text for it in operands)])


def came_of_result(
    desk: Desk, call: Call, operation: str, numbers: Sequence[str], size: str, before: Sequence[str] = ()
) -> Outcome:
    """The result of an operation on numbers, of so many digits and decimals, after other calculations."""
    length, decimals = size.split(".")
    half = "H" if "half" in call.words else " "
    factors = {} if before else {"_33": "A"} if len(numbers) == 1 else {"_18": "A", "_33": "B"}
    made = card("C", **factors, _28=operation, _43="R", _49=f"{length:>3}", _52=decimals, _53=half)
    printed = does(desk, [operand(it, False) for it in numbers], [*before, made], [card("O", _32="R", _40="  20")])[0]
    if printed.startswith("halt 1,"):
        return call.told("zero divisor")
    is_number = re.fullmatch(r" *\d*[\d}J-R]", printed) and re.fullmatch(r"-?\d*\.?\d*", call.answer)
    if is_number and not before and len(call.answer.partition(".")[2]) != int(decimals):
        return unread(call)
    if is_number and value_of(printed.strip(), int(decimals)) == Decimal(call.answer):
        return call.told(call.answer)
    return call.told(printed)


def shown_result(desk: Desk, call: Call) -> Outcome:
    """`add`, `sub`, `mult` and `div`: two numbers, and the size of the result."""
    return came_of_result(desk, call, call.words[0].upper(), [call.words[1], call.words[2]], call.words[3])


def shown_kept(desk: Desk, call: Call) -> Outcome:
    """`keep`, `align` with its decimals, and `fit` with its digits: one number, of another size."""
    size = {"keep": call.words[2], "align": f"15.{call.words[2]}", "fit": f"{call.words[2]}.0"}[call.words[0]]
    return came_of_result(desk, call, "Z-ADD", [call.words[1]], size)


def shown_order(desk: Desk, call: Call) -> Outcome:
    """`compare` and `compare_text`: the order of two numbers, or of two texts."""
    compared = card("C", _18="A", _28="COMP", _33="B", _54="212223")
    lines = [card("O", _23=f" {it}", _40="  10", _45=f"'{word}'") for it, word in ((21, "greater"), (22, "less"), (23, "equal"))]
    is_text = call.words[0] == "compare_text"
    printed = does(desk, [operand(it, is_text) for it in call.words[1:3]], [compared], lines)
    return call.told(printed[0].strip())


def shown_zoned(desk: Desk, call: Call) -> Outcome:
    """`write_zoned`: a whole number of so many digits as a record has it."""
    kept = card("C", _28="Z-ADD", _33="A", _43="R", _49=f"{call.words[2]:>3}", _52="0")
    printed = does(desk, [operand(call.words[1], False)], [kept], [card("O", _32="R", _40="  20")])
    return call.told(f'"{printed[0].strip()}"')


def shown_moved(desk: Desk, call: Call) -> Outcome:
    """`move_right_text` and `move_left_text`: a text or a number, moved to a text."""
    is_text = call.line.split()[1].startswith('"')
    operation = {"move_right_text": "MOVE", "move_left_text": "MOVEL"}[call.words[0]]
    moved = card("C", _28=operation, _33="A", _43="B")
    given = [operand(call.words[1], is_text), operand(call.words[2], True)]
    printed = does(desk, given, [moved], [card("O", _32="B", _40="  40")])
    return call.told(f'"{printed[0].strip(" ")}"')


def shown_rest(desk: Desk, call: Call) -> Outcome:
    """`remainder`: what a division leaves whose quotient has so many decimals."""
    divided = card("C", _18="A", _28="DIV", _33="B", _43="Q", _49=" 15", _52=call.words[3])
    return came_of_result(desk, call, "MVR", call.words[1:3], "15.9", [divided])


def shown_read(desk: Desk, call: Call) -> Outcome:
    """`read_zoned`: the number that a text of a record is; `= bad digit at 1` if a job halts, by its place in the text, counted from 0."""
    field = Operand(call.words[1], "0")
    printed = does(desk, [field], [], [card("O", _32="A", _40="  20")])[0]
    bad = re.search(r"^halt 4,.* in column (\d+) isn't a digit \[halt 4\]$", printed, re.S | re.M)
    return call.told(f"bad digit at {int(bad[1]) - 1}" if bad else number_of(printed))


def number_of(printed: str) -> str:
    return str(value_of(printed.strip(), 0)) if re.fullmatch(r" *\d*[\d}J-R]", printed) else printed


def shown_moved_number(desk: Desk, call: Call) -> Outcome:
    """`move_right` and `move_left`: a text or a number, moved to a number."""
    is_text = call.line.split()[1].startswith('"')
    operation = {"move_right": "MOVE", "move_left": "MOVEL"}[call.words[0]]
    given = [operand(call.words[1], is_text), operand(call.words[2], False)]
    printed = does(desk, given, [card("C", _28=operation, _33="A", _43="B")], [card("O", _32="B", _40="  40")])[0]
    return call.told("bad digit" if printed.startswith("halt 4,") else number_of(printed))
