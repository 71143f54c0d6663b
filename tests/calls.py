"""Lines of calls: what each says of a card, a number, a form or names, beside what rpg2 makes of it. README.md says how they are written."""

import tempfile
from collections.abc import Callable, Iterable
from functools import partial
from itertools import groupby
from pathlib import Path

import call_forms
import call_numbers
from call import GIVEN, Call, calls_in, unread
from call_cards import CAME, shown_card, shown_columns
from call_sources import Desk
from outcome import Outcome
from program import Program

AT_ONCE = 40

ALONE = {
    "width": call_numbers.shown_width,
    "parse": call_numbers.shown_fit,
    "compare": call_numbers.shown_order,
    "compare_text": call_numbers.shown_order,
    "remainder": call_numbers.shown_rest,
    "read_zoned": call_numbers.shown_read,
    "write_zoned": call_numbers.shown_zoned,
    "levels": call_forms.shown_levels,
    **dict.fromkeys(("add", "sub", "mult", "div"), call_numbers.shown_result),
    **dict.fromkeys(("keep", "align", "fit"), call_numbers.shown_kept),
    **dict.fromkeys(("move_right_text", "move_left_text"), call_numbers.shown_moved),
    **dict.fromkeys(("move_right", "move_left"), call_numbers.shown_moved_number),
    **dict.fromkeys(CAME, shown_card),
}
TOGETHER = {
    "with": shown_columns,
    "edit": call_numbers.shown_texts,
    "edit_by_codes": call_numbers.shown_by_codes,
    "form": call_forms.shown_form,
    "names": call_forms.shown_names,
}

# What the calls of a form, and of a list of names, are shown by.
KINDS = {"space": "form", "skip": "form", "place": "form", "define": "names", "look": "names", "form": "names"}


def kind_of(call: Call) -> str:
    return KINDS.get(call.words[0], call.words[0])


def likeness(call: Call) -> tuple[object, ...]:
    """What calls have in common that one source shows."""
    kind = kind_of(call)
    return (kind, *call.words[2:]) if kind in ("edit", "edit_by_codes") else (kind, call.given)


def shown_together(program: Program, calls: list[Call]) -> list[Outcome]:
    """Calls of which each run of like ones is shown by one source."""
    with tempfile.TemporaryDirectory() as folder:
        desk, outcomes = Desk(program, Path(folder)), []
        for (kind, *_), like in groupby(sorted(calls, key=likeness), likeness):
            outcomes += TOGETHER[kind](desk, list(like))
        return outcomes


def shown_alone(desk: Desk, call: Call) -> Outcome:
    try:
        return ALONE[call.words[0]](desk, call)
    except (ValueError, LookupError):
        return unread(call)


def shown_each(program: Program, calls: list[Call]) -> list[Outcome]:
    with tempfile.TemporaryDirectory() as folder:
        desk = Desk(program, Path(folder))
        return [shown_alone(desk, it) for it in calls]


def given_or_unread(calls: list[Call]) -> list[Outcome]:
    return [Outcome(it.place, f"as told: {it.line}") if it.words[0] in GIVEN else unread(it) for it in calls]


def jobs_of(program: Program, path: Path) -> Iterable[Callable[[], list[Outcome]]]:
    calls = list(calls_in(path))
    asked = [it for it in calls if it.answer is not None]
    for kind in TOGETHER:
        yield partial(shown_together, program, [it for it in asked if kind_of(it) == kind])
    alone = [it for it in asked if it.words[0] in ALONE]
    for at in range(0, len(alone), AT_ONCE):
        yield partial(shown_each, program, alone[at : at + AT_ONCE])
    yield partial(given_or_unread, [it for it in calls if it.answer is None or kind_of(it) not in TOGETHER | ALONE])


def in_order(program: Program, path: Path) -> list[Outcome]:
    """What comes of all lines of a file, in their order."""
    outcomes = [it for job in jobs_of(program, path) for it in job()]
    return sorted(outcomes, key=lambda it: int(it.place.split()[-1]))
