"""Lines of printed forms, of names, and of subroutines, beside what rpg2 makes of sources that have them."""

import re
from dataclasses import dataclass, field

from call import Call, escaped
from call_sources import INPUT, PRINT, TYPE, Desk, card, row_of, with_text
from outcome import Outcome

NAMES = "NAMES\n  name    field  form                      defined on  set on      used on"


def skip_word(line: int) -> str:
    """A line as columns 19-20 have it: A0 to B2 stand for 100 to 112."""
    return f"{'0123456789AB'[line // 10]}{line % 10}"


@dataclass
class FormLine:
    """A line of a form: the moves before it, its text, and the moves after it."""

    before: list[Call]
    text: str = ""
    after: list[Call] = field(default_factory=list)

    def cards(self, number: int) -> list[str]:
        moves = [(it, 17, 19) for it in self.before] + [(it, 18, 21) for it in self.after]
        line = card("O", _7="PRINT", _15="E", _18="0", _23=f" {number:02}")
        for call, space, skip in moves:
            is_space = call.words[0] == "space"
            line = with_text(line, space if is_space else skip, call.words[1] if is_space else skip_word(int(call.words[1])))
        text = [card("O", _40=f"{len(self.text):4}", _45="'" + self.text + "'")] if self.text else []
        return [line, *text]


    def turned(self, is_turned: bool) -> dict[Call, str]:
        """What came of each of its moves. One indicator tells of all: where it is as any of them wants, each is as told."""
        moves = [*self.before, *self.after]
        if any(it.answer == "overflow" for it in moves) == is_turned and len(moves) > 1:
            return {it: it.answer for it in moves}
        return dict.fromkeys(moves, "overflow" if is_turned else "no overflow")


def lines_of_form(calls: list[Call]) -> list[FormLine]:
    """The lines of a form. Of two moves before a line the first is the earlier line's, and moves that no line follows stand on empty ones."""
    lines, moves = [], []
    for call in calls:
        if call.words[0] != "place":
            moves.append(call)
            continue
        if moves[1:]:
            lines[-1].after.append(moves[0])
        lines.append(FormLine(moves[-1:], call.words[1]))
        moves = []
    return [*lines, *(FormLine([it]) for it in moves)]


def form_source(lines: list[FormLine], page: list[str]) -> list[str]:
    """A source that puts out the lines one after the other, and tells on the disk file at which of them overflow turned on. A page is
    its lines and its overflow line, or nothing where no card says them."""
    printer = with_text(PRINT, 33, "OF")
    sizes = []
    if page:
        printer = with_text(printer, 39, "L")
        sizes = [card("L", _7="PRINT", _15=page[0].zfill(3), _18="FL", _20=page[1].zfill(3), _23="OL")]
    disk = card("F", _7="DISK", _15="O", _19="F", _24="  80", _40="DISK")
    source = [INPUT, printer, disk, *sizes, with_text(TYPE, 19, "99")]
    for number in range(1, len(lines) + 1):
        source += [card("C", _28=it, _54=f"{by}") for it, by in (("SETOF", "OF"), ("SETON", f"{number:02}"))]
        source += [card("C", _28="EXCPT"), card("C", _28="SETOF", _54=f"{number:02}")]
        source.append(card("C", _9=" OF", _28="SETON", _54=f"{number + 40}"))
    for number, line in enumerate(lines, 1):
        source += line.cards(number)
    source.append(card("O", _7="DISK", _15="D", _23=" 99"))
    return source + [card("O", _23=f" {number + 40}", _40=f"{number:4}", _45="'*'") for number in range(1, len(lines) + 1)]


def shown_form(desk: Desk, calls: list[Call]) -> list[Outcome]:
    """The calls of one form: whether overflow turns on, and the bytes that are sent for each line."""
    lines = lines_of_form(calls)
    desk.print_of(form_source(lines, calls[0].given.split()[1:-1]), ["record"])
    sent, flags = desk.written("print"), desk.written("disk").ljust(80)
    turned = {it.place: came for line, flag in zip(lines, flags) for it, came in line.turned(flag == "*").items()}
    outcomes = []
    for call in calls:
        if call.words[0] == "place":
            wanted = escaped(call.answer[1:-1])
            outcomes.append(call.told(call.answer if sent.startswith(wanted) else repr(sent)))
            sent = sent[len(wanted) :]
        else:
            outcomes.append(call.told(turned[call.place]))
    return outcomes


def form_words(words: tuple[str, ...]) -> str:
    """The form of a field as a listing has it: `number 7.2`, `date 6.0` or `text 5`, with `array` or `table` before it and `by 20` after."""
    is_many = words[0] in ("array", "table")
    kind, size = words[1:3] if is_many else words[:2]
    of = f"{words[0]} of {words[words.index('by') + 1]}: " if is_many else ""
    return of + ("date number" if kind == "date" else kind) + f" {size}" + (", ascending" if "ascending" in words else "")


def defining_card(name: str, words: tuple[str, ...]) -> str:
    """The card that defines a name with a form: E where there are entries, else C."""
    is_many = words[0] in ("array", "table")
    kind, size = words[1:3] if is_many else words[:2]
    length, _, decimals = size.partition(".")
    if is_many:
        order = "A" if "ascending" in words else " "
        return card("E", _27=name, _36=f"{words[words.index('by') + 1]:>4}", _40=f"{length:>3}", _44=decimals, _45=order)
    operation, factor = ("MOVE", "'A'") if kind == "text" else ("Z-ADD", "0")
    return card("C", _28=operation, _33=factor, _43=name, _49=f"{length:>3}", _52=decimals)


def shown_names(desk: Desk, calls: list[Call]) -> list[Outcome]:
    """The calls of one list of names: their numbers, and their forms."""
    defined = [defining_card(it.words[1], it.words[2:]) for it in calls if it.words[0] == "define"]
    tables = [it for it in defined if it[5] == "E"]
    source = [INPUT, PRINT, *tables, TYPE, *(it for it in defined if it[5] == "C")]
    listing = desk.listing(source)
    _, errors = desk.asked("check", "source", "--faults", "99")
    faults = {(int(at), code) for at, code in re.findall(r"^source:(\d+):\d+: error: .* \[(F\d+)\]$", errors, re.M)}
    outcomes, cards = [], {"E": 3, "C": 4 + len(tables)}
    for call in calls:
        row = re.match(r"  \S+ +#(\d+) +(\S.*?)(?:   |  \d|  -|$)", row_of(listing, NAMES, call.words[1]))
        came = "none" if row is None else row[2] if call.words[0] == "form" else row[1]
        if call.words[0] == "define":
            sheet = defining_card(call.words[1], call.words[2:])[5]
            at, cards[sheet] = cards[sheet], cards[sheet] + 1
            came = "other" if (at, "F2") in faults else "full" if (at, "F6") in faults else came
        is_form = call.words[0] == "form" and came == form_words(tuple(call.answer.split()))
        outcomes.append(call.told(call.answer if is_form else came))
    return outcomes


def shown_levels(desk: Desk, call: Call) -> Outcome:
    """`levels`: the levels of so many subroutines that call one another, or the first call that leads back to its caller."""
    calls = [it.split(">") for it in call.words[2:]]
    source, cards_of_calls = [INPUT, PRINT, TYPE], {}
    for caller in range(int(call.words[1])):
        source.append(card("C", _7="SR", _18=f"S{caller}", _28="BEGSR"))
        for number, (one, other) in enumerate(calls):
            if int(one) == caller:
                source.append(card("C", _7="SR", _28="EXSR", _33=f"S{other}"))
                cards_of_calls[len(source)] = number
        source.append(card("C", _7="SR", _28="ENDSR"))
    desk.give(source)
    line, _ = desk.asked("compile", "source", "object")
    if it := re.match(r"card (\d+): F14\n", line):
        return call.told(f"cycle {cards_of_calls[int(it[1])]}")
    shown = desk.asked("show", "--rows", "object")[0]
    return call.told(" ".join(re.findall(r"^ +\d+ +subroutine \d+, level (\d+)$", shown, re.M)))
