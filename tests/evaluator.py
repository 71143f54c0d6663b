"""A plain evaluator of jobs: what the cards of a source mean over records, by names and labels. It shares nothing with rpg2."""

from collections.abc import Iterator
from dataclasses import dataclass, field
from fractions import Fraction

from cards import Alternatives, Calculation, Condition, Entry, Factor, InputField, Line, Literal, NotEvaluated, Shows, Source, Table
from values import Form, Halt, Held, compared, cut, moved, read, stored

LEVELS = [f"L{it}" for it in range(1, 10)]
HALTS = [f"H{it}" for it in range(1, 10)]

# More calculations than any part of a cycle does here.
MOST = 100_000


@dataclass(frozen=True)
class Course:
    """How a job ended, in how many cycles, and what it printed."""

    ending: str
    cycles: int
    print: bytes

    @property
    def line(self) -> str:
        return f"{self.ending}, cycles {self.cycles}"


@dataclass
class Field:
    """A field, an array or a table; entries are counted from 1."""

    form: Form
    values: list[int | str]
    is_array: bool = False
    is_table: bool = False
    current: int = 1

    def held(self, position: int) -> Held:
        return Held(self.form, self.values[position - 1])

    def set(self, position: int, value: int | str) -> None:
        self.values[position - 1] = value


@dataclass
class Paper:
    """The lines that were placed. Each is a line further than the one before."""

    page: int
    text: str = ""
    count: int = 0

    def place(self, line: str) -> None:
        if self.count:
            self.text += "\f" if self.count % self.page == 0 else "\n"
        self.text += line.rstrip(" ")
        self.count += 1

    def ended(self) -> bytes:
        return (self.text + ("\n" if self.count else "")).encode("latin-1")


@dataclass
class Place:
    part: str
    next: int = 0


@dataclass
class Evaluator:
    """The state of a job."""

    source: Source
    allowance: int
    fields: dict[str, Field] = field(default_factory=dict)
    on: set[str] = field(default_factory=lambda: {"L0", "1P"})
    remainder: Fraction = Fraction(0)
    left: int = 0
    paper: Paper = field(init=False)
    groups: dict[str, str] = field(default_factory=dict)  # what a level's control fields had last

    def __post_init__(self) -> None:
        self.paper = Paper(self.source.page)
        for table, data in self.tables_with_data():
            self.define_tables(table, data)
        for it in self.source.inputs:
            self.define(it.name, it.form)
        for part in self.source.parts.values():
            for it in part:
                if it.form is not None:
                    self.define(it.result.name, it.form)

    # What cards define.

    def define(self, name: str, form: Form) -> None:
        self.fields.setdefault(name, Field(form, [form.nothing()]))

    def tables_with_data(self) -> Iterator[tuple[Table, list[str] | None]]:
        data = iter(self.source.data)
        for table in self.source.tables:
            yield table, next(data) if table.on_a_card else None

    def define_tables(self, table: Table, data: list[str] | None) -> None:
        """Defines a table or an array, and its alternating one, with the entries that the data have."""
        both = [it for it in (table, table.other) if it is not None]
        width = sum(it.form.length for it in both)
        for at, it in enumerate(both):
            before = sum(other.form.length for other in both[:at])
            values = [it.form.nothing()] * it.entries
            for entry in range(it.entries if data is not None else 0):
                card = data[entry // table.on_a_card]
                first = entry % table.on_a_card * width + before
                text = card[first : first + it.form.length]
                values[entry] = text if it.form.decimals is None else read(text)
            is_table = it.name.startswith("TAB")
            self.fields[it.name] = Field(it.form, values, is_array=not is_table, is_table=is_table)

    # Indicators.

    def turn(self, names: list[str], is_on: bool) -> None:
        self.on = self.on | set(names) if is_on else self.on - set(names)

    def show(self, shows: Shows, order: int | None) -> None:
        """Turns the named indicators off, and the one of the result on."""
        self.turn(shows.named(), False)
        if order is not None and shows.of(order):
            self.turn([shows.of(order)], True)

    def hold(self, conditions: list[Condition]) -> bool:
        return all((it.indicator in self.on) != it.is_negated for it in conditions)

    def is_done(self, alternatives: Alternatives) -> bool:
        return any(self.hold(it) for it in alternatives)

    # Entries and factors.

    def position(self, entry: Entry) -> int:
        """The entry of a name on a card, as it is now."""
        named = self.fields[entry.name]
        if entry.index is None:
            return named.current if named.is_table else 1
        is_literal = isinstance(entry.index, int)
        position = entry.index if is_literal else self.fields[entry.index].values[0]
        if not 1 <= position <= len(named.values):
            raise Halt(2)
        return position

    def held(self, factor: Factor) -> Held:
        if isinstance(factor, Literal):
            return Held(factor.form, factor.value)
        return self.fields[factor.name].held(self.position(factor))

    def store(self, it: Calculation, number: Fraction) -> None:
        """Stores a number in the result, and shows what is stored."""
        target = self.fields[it.result.name]
        value = stored(number, target.form, it.is_half_adjusted)
        target.set(self.position(it.result), value)
        self.show(it.shows, (value > 0) - (value < 0))

    # Operations.

    def arithmetic(self, it: Calculation) -> None:
        one = self.held(it.first or it.result).exact()
        other = self.held(it.second).exact()
        self.position(it.result)
        if it.operation == "DIV":
            self.divide(it, one, other)
        else:
            self.store(it, {"ADD": one + other, "SUB": one - other, "MULT": one * other}[it.operation])

    def divide(self, it: Calculation, one: Fraction, other: Fraction) -> None:
        if other == 0:
            raise Halt(1)
        if not it.is_half_adjusted:
            decimals = self.fields[it.result.name].form.decimals
            self.remainder = one - other * cut(one / other, decimals)
        self.store(it, one / other)

    def assign(self, it: Calculation) -> None:
        number = self.held(it.second).exact()
        self.store(it, number if it.operation == "Z-ADD" else -number)

    def sum_up(self, it: Calculation) -> None:
        array = self.fields[it.second.name]
        self.store(it, sum((array.held(at + 1).exact() for at in range(len(array.values))), Fraction(0)))

    def leave(self, it: Calculation) -> None:
        self.store(it, self.remainder)

    def move(self, it: Calculation) -> None:
        source = self.held(it.second)
        position = self.position(it.result)
        target = self.fields[it.result.name]
        target.set(position, moved(source, target.held(position), it.operation == "MOVEL"))

    def compare(self, it: Calculation) -> None:
        self.show(it.shows, compared(self.held(it.first), self.held(it.second)))

    def search(self, it: Calculation) -> None:
        """LOKUP: what is found becomes current in both tables, and its place goes to an index that is a field."""
        wanted = self.held(it.first)
        searched = self.fields[it.second.name]
        first = self.position(it.second) if it.second.index is not None else 1
        found = self.found(it, wanted, searched, first)
        if isinstance(it.second.index, str):
            index = self.fields[it.second.index]
            index.set(1, stored(Fraction(found[0] if found else 1), index.form, False))
        for name in [it.second.name] + ([it.result.name] if it.result else []):
            if found and self.fields[name].is_table:
                self.fields[name].current = found[0]
        self.show(it.shows, found[1] if found else None)

    def found(self, it: Calculation, wanted: Held, searched: Field, first: int) -> tuple[int, int] | None:
        """The position that a search finds, and how its entry compares with what is sought."""
        orders = {at: compared(searched.held(at), wanted) for at in range(first, len(searched.values) + 1)}
        equal, high, low = ([at for at, order in orders.items() if order == it] for it in (0, 1, -1))
        if it.shows.equal and equal:
            return equal[0], 0
        if it.shows.high and high:
            return high[0], 1
        if it.shows.low and low:
            return low[-1], -1
        return None

    def operate(self, it: Calculation) -> None:
        """An operation that continues at the next calculation."""
        does = {
            **dict.fromkeys(("ADD", "SUB", "MULT", "DIV"), self.arithmetic),
            **dict.fromkeys(("Z-ADD", "Z-SUB"), self.assign),
            **dict.fromkeys(("MOVE", "MOVEL"), self.move),
            "MVR": self.leave,
            "XFOOT": self.sum_up,
            "COMP": self.compare,
            "LOKUP": self.search,
            "SETON": lambda it: self.turn(it.shows.named(), True),
            "SETOF": lambda it: self.turn(it.shows.named(), False),
            "EXCPT": lambda it: self.put_out("E"),
            "TAG": lambda it: None,
            "BEGSR": lambda it: None,
        }
        if it.operation not in does:
            raise NotEvaluated(f"operation {it.operation}")
        does[it.operation](it)

    # Control.

    def spend(self) -> None:
        if self.left == 0:
            raise Halt(5)
        self.left -= 1

    def step(self, here: Place, back: list[Place]) -> Place:
        """Does a calculation, and returns which is next."""
        it = self.source.parts[here.part][here.next]
        following = Place(here.part, here.next + 1)
        if it.level and it.level not in self.on or not self.is_done(it.alternatives):
            return following
        if it.operation == "GOTO":
            labels = [other.label for other in self.source.parts[here.part]]
            target = Place(here.part, labels.index(it.second.name))
            if target.next <= here.next:
                self.spend()
            return target
        if it.operation == "EXSR":
            self.spend()
            back.append(following)
            return Place(it.second.name)
        if it.operation == "ENDSR":
            return back.pop()
        self.operate(it)
        return following

    def calculate(self, part: str) -> None:
        """The calculations of a part, with the subroutines that they execute."""
        here, back = Place(part), []
        for _ in range(MOST):
            if here.next == len(self.source.parts[here.part]):
                return
            here = self.step(here, back)
        raise NotEvaluated("calculations without end")

    # Lines.

    def put_out(self, times: str) -> None:
        for line in self.source.lines:
            if line.time in times and self.is_done(line.alternatives):
                self.put_line(line)

    def put_line(self, line: Line) -> None:
        """Lays the fields into a line, places it, and blanks what is to be blanked."""
        laid, blanked = " " * self.source.width, []
        for it in line.fields:
            if not self.hold(it.conditions):
                continue
            text = it.constant
            if it.entry is not None:
                position = self.position(it.entry)
                text = self.fields[it.entry.name].held(position).written()
                blanked += [(it.entry.name, position)] if it.is_blanked else []
            laid = laid[: it.end - len(text)] + text + laid[it.end :]
        self.paper.place(laid)
        for name, position in blanked:
            self.fields[name].set(position, self.fields[name].form.nothing())

    # Records and cycles.

    def fill(self, it: InputField, record: str) -> None:
        text = record[it.first - 1 : it.first - 1 + it.form.length]
        value = text if it.form.decimals is None else read(text)
        self.fields[it.name].set(1, value)
        order = (0 if text.strip(" ") == "" else None) if it.form.decimals is None else (value > 0) - (value < 0)
        self.show(it.shows, order)

    def breaks(self, record: str) -> list[str]:
        """The levels that a record breaks: the highest, and all below it."""
        highest = 0
        for number, level in enumerate(LEVELS, start=1):
            fields = [it for it in self.source.inputs if it.level == level]
            if fields:
                group = "".join(record[it.first - 1 : it.first - 1 + it.form.length] for it in fields)
                highest = number if self.groups.get(level) != group else highest
                self.groups[level] = group
        return LEVELS[:highest]

    def take(self, record: str | None) -> None:
        """A record is taken in, and its indicators go on; or those of the end."""
        self.turn([*LEVELS, "1P", self.source.indicator], False)
        if record is None or "LR" in self.on:
            self.turn([*LEVELS, "LR"], True)
        else:
            self.turn([self.source.indicator, *self.breaks(record)], True)

    def cycle(self, record: str | None, is_bypassed: bool) -> bool:
        """Does a cycle, and returns whether the job goes on."""
        self.left = self.allowance
        self.put_out("HD")
        if self.on & set(HALTS):
            raise Halt(6)
        self.take(record)
        if "LR" in self.on or not is_bypassed:
            self.calculate("total")
            self.put_out("T")
        if "LR" in self.on or record is None:
            return False
        for it in self.source.inputs:
            self.fill(it, record)
        self.calculate("detail")
        return True

    def evaluate(self, records: list[str]) -> Course:
        cycles, ending = 0, "end of job"
        try:
            for record in [*records, None]:
                cycles += 1
                if not self.cycle(record, is_bypassed=cycles == 1):
                    break
        except Halt as halt:
            ending = str(halt)
        return Course(ending, cycles, self.paper.ended())


def evaluate(source: Source, allowance: int, text: bytes) -> Course:
    """What the cards of a source mean over the records of a text."""
    lines = text.decode("latin-1").split("\n")
    records = [it.removesuffix("\r") for it in lines[:-1]] + [it for it in lines[-1:] if it]
    if any(len(it) > source.record_length for it in records):
        raise NotEvaluated("a record that is too long")
    return Evaluator(source, allowance).evaluate([it.ljust(source.record_length) for it in records])
