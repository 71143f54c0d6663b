"""Numbers and texts as a source has them: how they are stored, written, read, moved and compared."""

import math
from dataclasses import dataclass
from fractions import Fraction

# All characters of a text, the lowest first. Others come after these, by value.
ORDER = " .<(+|&!$*);-/,%_>?`:#@'=\"abcdefghijklmnopqr~stuvwxyz^[]{ABCDEFGHI}JKLMNOPQR\\STUVWXYZ0123456789"

# The last character of a number in a record: minus 0 to 9, and plus 0 to 9.
MINUS = "}JKLMNOPQR"
PLUS = "{ABCDEFGHI"


class Halt(Exception):
    """A job halts, with this number."""

    def __init__(self, number: int):
        super().__init__(f"halt {number}")
        self.number = number


@dataclass(frozen=True)
class Form:
    """How long a value is, and the decimals of a number; a text has None."""

    length: int
    decimals: int | None

    def nothing(self) -> int | str:
        return " " * self.length if self.decimals is None else 0


@dataclass(frozen=True)
class Held:
    """A value in its form: a text, or a number without its point."""

    form: Form
    value: int | str

    @property
    def is_text(self) -> bool:
        return isinstance(self.value, str)

    def exact(self) -> Fraction:
        return Fraction(self.value, 10**self.form.decimals)

    def written(self) -> str:
        """The characters that a line or a text gets of it."""
        if self.is_text:
            return self.value
        digits = self.digits()
        return digits[:-1] + MINUS[int(digits[-1])] if self.value < 0 else digits

    def digits(self) -> str:
        return str(abs(self.value)).rjust(self.form.length, "0")


def cut(number: Fraction, decimals: int) -> Fraction:
    """A number without its decimals too many."""
    return Fraction(math.trunc(number * 10**decimals), 10**decimals)


def stored(number: Fraction, form: Form, is_half_adjusted: bool) -> int:
    """A number as a field keeps it: without the decimals too many and the digits too many on the left."""
    size = abs(number) * 10**form.decimals + (Fraction(1, 2) if is_half_adjusted else 0)
    kept = math.floor(size) % 10**form.length
    return -kept if number < 0 else kept


def read(text: str) -> int:
    """The number that columns of a record spell."""
    front, last = text[:-1].replace(" ", "0"), text[-1].replace(" ", "0")
    sign = -1 if last in MINUS else 1
    for letters in (MINUS, PLUS):
        if last in letters:
            last = str(letters.index(last))
    digits = front + last
    if not (digits.isascii() and digits.isdigit()):
        raise Halt(4)
    return sign * int(digits)


def over(old: str, new: str, is_left: bool) -> str:
    """The characters of a text over those of another, aligned left or right."""
    count = min(len(old), len(new))
    return new[:count] + old[count:] if is_left else old[: len(old) - count] + new[len(new) - count :]


def moved(source: Held, target: Held, is_left: bool) -> int | str:
    """The contents of the target once the source is moved there."""
    if target.is_text:
        return over(target.value, source.written(), is_left)
    if source.is_text:
        return read(over(target.written(), source.value, is_left))
    size = int(over(target.digits(), source.digits(), is_left))
    is_last_replaced = not is_left or source.form.length >= target.form.length
    return -size if (source if is_last_replaced else target).value < 0 else size


def place_in_order(character: str) -> int:
    return ORDER.index(character) if character in ORDER else len(ORDER) + ord(character)


def compared(one: Held, other: Held) -> int:
    """1, -1 or 0, as one is greater, less or equal."""
    if one.is_text:
        width = max(len(one.value), len(other.value))
        a, b = ([place_in_order(it) for it in text.ljust(width)] for text in (one.value, other.value))
    else:
        a, b = one.exact(), other.exact()
    return (a > b) - (a < b)
