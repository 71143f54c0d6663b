"""Values of old decks: numbers, texts, moves and editing, which old_deck_jobs.py uses. Nothing is shared with rpg2."""

import re
from typing import NamedTuple

ORDER = " .<(+|&!$*);-/,%_>?`:#@'=\"abcdefghijklmnopqr~stuvwxyz^[]{ABCDEFGHI}JKLMNOPQR\\STUVWXYZ0123456789"
RANK = {character: rank for rank, character in enumerate(ORDER)}
PLUS = "{ABCDEFGHI"
MINUS = "}JKLMNOPQR"


class Halt(Exception):
    """The job ends before its end of file."""


class Form(NamedTuple):
    """The length of a name, its decimals, blank for a text, and its entries, 0 where it isn't an array or a table."""

    length: int
    decimals: str
    entries: int = 0

    @property
    def is_number(self):
        return self.decimals != " "

    @property
    def places(self):
        return int(self.decimals) if self.is_number else 0

    def nothing(self):
        return 0 if self.is_number else " " * self.length

    def read(self, text):
        return zoned(text) if self.is_number else text

    def held(self, value):
        return Held(value, self.length, self.places, self.is_number)


class Held(NamedTuple):
    """A value with its size. A number is a whole one, without its decimal point."""

    value: int | str
    length: int
    places: int
    is_number: bool


# ---- numbers


def zoned(text):
    """The number of digits with a sign over the last one."""
    text = text.replace(" ", "0")
    last, sign = text[-1], 1
    if last in MINUS:
        last, sign = str(MINUS.index(last)), -1
    elif last in PLUS:
        last = str(PLUS.index(last))
    if not (text[:-1] + last).isdigit():
        raise Halt("halt 4")
    return sign * int(text[:-1] + last)


def unzoned(number, length):
    digits = str(abs(number)).rjust(length, "0")
    return digits if number >= 0 else digits[:-1] + MINUS[int(digits[-1])]


def cut(number, divisor):
    quotient = abs(number) // abs(divisor)
    return quotient if (number < 0) == (divisor < 0) else -quotient


def rounded(number, divisor):
    sign = 1 if number >= 0 else -1
    return sign * ((2 * abs(number) + divisor) // (2 * divisor))


def kept(number, length):
    """The last digits of a number."""
    digits = abs(number) % 10**length
    return -digits if number < 0 else digits


def signs(number):
    """Whether a number is plus, minus or zero."""
    return number > 0, number < 0, number == 0


def constant(text):
    """The value of a literal on a card."""
    if text[0] == "'":
        content = unquoted(text)
        return Held(content, len(content), 0, False)
    whole, _, fraction = text.lstrip("+-").partition(".")
    number = int(whole + fraction)
    return Held(-number if text[0] == "-" else number, len(whole + fraction), len(fraction), True)


def is_literal(text):
    return text[0] == "'" or text[0].isdigit() or text[0] in "+-."


def unquoted(text):
    return text[1:-1].replace("''", "'") if text else None


def figurative(name, other):
    """*BLANK or *ZERO, of the size of the other operand."""
    if name.startswith("*ZERO"):
        return Held(0 if other.is_number else "0" * other.length, other.length, other.places if other.is_number else 0, other.is_number)
    return Held(" " * other.length, other.length, 0, False)


def compared(one, other):
    """1, -1 or 0: whether the first is high, low or equal."""
    if one.is_number:
        left = one.value * 10 ** max(0, other.places - one.places)
        right = other.value * 10 ** max(0, one.places - other.places)
    else:
        length = max(len(one.value), len(other.value))
        left, right = ([RANK[it] for it in text.value.ljust(length)] for text in (one, other))
    return (left > right) - (left < right)


# ---- moves


def moved(operation, source, target):
    """What a target has after MOVE or MOVEL."""
    return moved_to_number(operation, source, target) if target.is_number else moved_to_text(operation, source, target)


def moved_to_text(operation, source, target):
    text = unzoned(source.value, source.length) if source.is_number else source.value
    if operation == "MOVE":
        return text[-target.length :] if len(text) >= target.length else target.value[: target.length - len(text)] + text
    return text[: target.length] if len(text) >= target.length else text + target.value[len(text) :]


def moved_to_number(operation, source, target):
    """Digits go over those of the target. The sign goes with the last one."""
    length = target.length
    digits = str(abs(source.value)).rjust(source.length, "0") if source.is_number else source.value
    has_last = operation == "MOVE" or len(digits) >= length
    taken = digits[-length:] if operation == "MOVE" else digits[:length]
    sign = (-1 if source.is_number and source.value < 0 else 1) if has_last else (-1 if target.value < 0 else 1)
    if not source.is_number:
        sign, taken = digits_of_text(taken, sign, has_last)
    new = taken.rjust(length, "#") if operation == "MOVE" else taken.ljust(length, "#")
    old = str(abs(target.value)).rjust(length, "0")
    return sign * int("".join(before if it == "#" else it for it, before in zip(new, old)))


def digits_of_text(text, sign, has_last):
    if has_last:
        number = zoned(text)
        return -1 if number < 0 else 1, str(abs(number)).rjust(len(text), "0")
    digits = text.replace(" ", "0")
    if not digits.isdigit():
        raise Halt("halt 4")
    return sign, digits


# ---- editing


def edited(form, value, code, word):
    """A value as a field of a line has it."""
    if not form.is_number:
        return value
    digits = str(abs(value)).rjust(form.length, "0")
    if code == "X":
        return digits
    if code == "Z":
        return digits.lstrip("0").rjust(form.length)
    if code == "Y":
        return (" " if digits[0] == "0" else digits[0]) + digits[1] + "/" + digits[2:4] + "/" + digits[4:]
    if code:
        return edited_by_code(form, value, code, word)
    if word is None:
        return unzoned(value, form.length)
    return edited_by_word(word, digits, value < 0)


def edited_by_code(form, value, code, fill):
    digits = str(abs(value)).rjust(form.length, "0")
    body = whole_digits(form, value, digits, code in "12ABJK")
    if form.places:
        body += "." + digits[form.length - form.places :]
    tail = "" if code in "1234" else ("CR" if value < 0 else "  ") if code in "ABCD" else ("-" if value < 0 else " ")
    if value == 0 and code in "24BDKM":
        body = "*" * len(body) if fill == "*" else " " * len(body)
        return (" " if fill == "$" else "") + body + tail
    if fill == "*":
        body = body.replace(" ", "*")
    if fill == "$":
        body = with_dollar(body)
    return body + tail


def whole_digits(form, value, digits, has_commas):
    count = form.length - form.places
    body, is_significant = "", False
    for place in range(count):
        if has_commas and place and (count - place) % 3 == 0:
            body += "," if is_significant else " "
        is_last_zero = place == count - 1 and form.places == 0 and value == 0
        is_significant = is_significant or digits[place] != "0" or is_last_zero
        body += digits[place] if is_significant else " "
    return body


def with_dollar(body):
    """A $ in front of the first character that isn't blank."""
    body = " " + body
    first = len(body) - len(body.lstrip())
    return body[: first - 1] + "$" + body[first:]


def edited_by_word(word, digits, is_minus):
    stop = min([word.index(it) for it in "0*" if it in word] or [len(word)])
    floats = 0 < stop < len(word) and word[stop - 1] == "$"
    if floats:
        word = word[: stop - 1] + word[stop:]
        stop -= 1
    places = [at for at, it in enumerate(word) if it == " " or at == stop]
    digit_at = dict(zip(places, digits.rjust(len(places), "0")))
    body = word_body(word[: places[-1] + 1], stop, digit_at) + word_tail(word[places[-1] + 1 :], is_minus)
    if not floats:
        return body
    body = " " + body
    first = len(body) - len(body.lstrip())
    return body[: first - 1] + "$" + body[first:] if 0 < first < len(body) else body


def word_body(word, stop, digit_at):
    """The part of an edit word up to its last digit."""
    fill = "*" if word[stop : stop + 1] == "*" else " "
    body, is_significant = "", False
    for at, character in enumerate(word):
        is_live = is_significant or at > stop
        if digit_at.get(at, "0") != "0":
            body, is_significant = body + digit_at[at], True
        elif at in digit_at:
            body += digit_at[at] if is_live else fill
        elif at == 0 and character == "$":
            body += "$"
        elif is_live:
            body += " " if character == "&" else character
        else:
            body += fill
    return body


def word_tail(tail, is_minus):
    """The part after the last digit. CR or a minus is there for a negative number."""
    sign = re.search("CR|-", tail)
    body = ""
    for at, character in enumerate(tail):
        if sign and sign.start() <= at < sign.end():
            body += character if is_minus else " "
        else:
            body += " " if character == "&" else character
    return body
