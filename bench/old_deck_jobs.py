"""What the job of an old deck does with its records: a plain evaluator, cycle by cycle. Nothing is shared with rpg2."""

from decimal import ROUND_FLOOR, Context, Decimal
from typing import NamedTuple

from old_deck_values import (
    MINUS,
    PLUS,
    RANK,
    Halt,
    compared,
    constant,
    cut,
    edited,
    figurative,
    is_literal,
    kept,
    moved,
    rounded,
    signs,
    unzoned,
)
from old_decks import PAGES, SWITCHES

OUT_OF_ORDER = "out of order"
LEVELS = [f"L{it}" for it in range(1, 10)]
MOST_CALCULATIONS = 200_000
MOST_COLUMNS = 9999


class Course(NamedTuple):
    """How a job ended (`end`, `halt N` or out of order), its print, its disk files by their names, those with records that lines change
    among them, and how many records were chosen from each input file."""

    ending: str
    print: str
    disks: dict
    chosen: dict


class Taken(NamedTuple):
    """A record that waits, with its type's alternative, its fields, and the value of its match fields; None where it has none."""

    record: str
    alternative: object
    fields: list
    match: tuple | None


class Paper:
    """The printed text of a printer, where its form stands, and whether its overflow lines are due."""

    def __init__(self, overflow, length, overflow_line):
        self.overflow, self.length, self.overflow_line = overflow, length, overflow_line
        self.overflow_waits = self.overflow_is_new = self.overflow_is_done = False
        self.page = self.at = 1
        self.last, self.text, self.is_begun = (1, 1), "", False

    def skip(self, line):
        """Moves to a line, and returns whether the form reached overflow on the way."""
        is_ahead = line > self.at
        self.page += line < self.at
        self.at = line
        return is_ahead and line >= self.overflow_line

    def space(self, lines):
        if self.at + lines > self.length:
            is_near = self.at < self.overflow_line
            self.page += 1
            self.at += lines - self.length
            return is_near
        self.at += lines
        return self.at >= self.overflow_line

    def place(self, text):
        page, line = self.last
        if (self.page, self.at) == self.last and self.is_begun:
            self.text += "\r"
        else:
            self.text += "\f" * (self.page - page) + "\n" * (self.at - (line if self.page == page else 1))
        self.text += text
        self.last, self.is_begun = (self.page, self.at), True

    def ended(self):
        return self.text + ("\n" if self.is_begun else "")


def without_signs(text, decimals):
    """The columns of a control or match field, as they are compared: of a number, its digits."""
    if decimals == " ":
        return text
    return "".join("0" if it in " {}" else str(PLUS.find(it) if it in PLUS else MINUS.find(it) if it in MINUS else it) for it in text)


class Records:
    """The records of all input files, with their types, their order and their matches. `records` has those of each file by its name."""

    def __init__(self, deck, records):
        self.deck, self.files = deck, deck.inputs()
        self.all = {file: [it.ljust(deck.files[file].length) for it in records[file]] for file in self.files}
        self.left = {file: list(records[file]) for file in self.files}
        self.number, self.match, self.chosen = dict.fromkeys(self.files, 0), dict.fromkeys(self.files), dict.fromkeys(self.files)
        self.counts = dict.fromkeys(self.files, 0)  # how many records of each file a cycle was for
        self.waiting, self.wanted = {}, list(self.files)

    def next(self):
        """The file and the record that a cycle is for, or None for both."""
        for file in self.wanted:
            self.waiting[file] = self.take(file)
        file = self.selected()
        if file is None or self.is_left_out(self.waiting[file]):
            return None, None
        self.wanted = [file]
        self.counts[file] += 1
        taken = self.waiting[file]
        if taken.match is not None:
            self.chosen[file] = taken.match
        return file, taken

    def take(self, file):
        if not self.left[file]:
            return None
        record, length = self.left[file].pop(0), self.deck.files[file].length
        if len(record) > length:
            raise Halt("halt 7")
        record = record.ljust(length)
        record_type, alternative = self.typed(file, record)
        if record_type.number is not None:
            self.number[file] = self.in_order(file, self.number[file], record_type.number)
        fields = record_type.fields_of(alternative)
        return Taken(record, alternative, fields, self.matched(file, record, fields))

    def typed(self, file, record):
        for record_type in self.deck.types:
            for alternative in record_type.alternatives:
                if record_type.file == file and not record_type.is_ahead and all(it.holds(record) for it in alternative.codes):
                    return record_type, alternative
        raise Halt("halt 3")

    def in_order(self, file, last, number):
        """The number of a record that may follow the last numbered one."""
        types = {it.number: it for it in self.deck.types if it.number is not None and it.file == file}

        def may_miss(low, high):
            return all(it.is_optional for other, it in types.items() if low < other < high)

        repeats = number == last and types[number].may_repeat
        follows = number > last and may_miss(last, number)
        if repeats or follows or may_miss(last, 100) and may_miss(0, number):
            return number
        raise Halt(OUT_OF_ORDER)

    def matched(self, file, record, fields):
        fields = sorted((it for it in fields if it.match), key=lambda it: it.match, reverse=True)
        if not fields:
            return None
        value = tuple(RANK[character] for it in fields for character in without_signs(it.text_of(record), it.decimals))
        if self.match[file] is not None and value < self.match[file]:
            raise Halt("halt 8")
        self.match[file] = value
        return value

    def is_left_out(self, taken):
        """Whether a record doesn't follow the last ones of the files with E in 17, which are read."""
        ending = [it for it in self.files if self.deck.files[it].ends] or self.files
        if len(ending) == len(self.files) or any(self.waiting[it] is not None for it in ending):
            return False
        values = [self.match[it] for it in ending if self.match[it] is not None]
        if taken.match is None or not self.deck.has_match:
            return not values and self.files[0] in ending
        return not values or taken.match > max(values)

    def selected(self):
        """The file whose record is next: one without match fields at once, else the least value, the earlier file first."""
        left = [it for it in self.files if self.waiting[it] is not None]
        unmatched = [it for it in left if self.waiting[it].match is None or not self.deck.has_match]
        if unmatched:
            return unmatched[0]
        return min(left, key=lambda it: self.waiting[it].match) if left else None

    def is_matching(self, file, taken):
        """Whether a file of the other kind has a record with the same value: MR."""
        others = self.files[1:] if file == self.files[0] else self.files[:1]
        return taken.match is not None and any(taken.match in (self.chosen[it], self.match[it]) for it in others)

    def ahead(self, file, chosen):
        """The next record of a file: nines after the last one."""
        if file == chosen:
            record = self.left[file][0] if self.left[file] else None
        else:
            record = self.waiting[file].record if self.waiting[file] else None
        return "9" * MOST_COLUMNS if record is None else record.ljust(self.deck.files[file].length)


class Job:
    """The state of a job. `date` has two digits each of month, day and year, `switches` a digit for each of U1 to U8."""

    def __init__(self, deck, switches, date):
        self.deck, self.forms, self.values = deck, deck.forms, deck.first_values()
        self.values.update(UDATE=int(date), UMONTH=int(date[:2]), UDAY=int(date[2:4]), UYEAR=int(date[4:]))
        self.current = dict.fromkeys(deck.table_names, 0)
        self.on = {"L0", "1P"} | {name for name, digit in zip(SWITCHES, switches) if digit == "1"}
        self.papers = {it.name: Paper(it.overflow, *deck.page_forms.get(it.name, (66, 60))) for it in deck.printers}
        self.disks, self.records = {}, None
        self.remainder, self.spent = (0, 0), 0
        self.groups, self.had_levels = {}, False

    # ---- values

    def holds(self, conditions):
        return all((it.indicator in self.on) != it.is_negated for it in conditions)

    def place_of(self, entry, at=None):
        """A name, and which of its entries an operation takes: the current one of a table, `at` of a whole array, None of a plain field."""
        name, comma, index = entry.partition(",")
        if comma:
            position = int(index) if index.isdigit() else self.values[index]
            if not 1 <= position <= self.forms[name].entries:
                raise Halt("halt 2")
            return name, position - 1
        return name, self.current.get(name, at if self.forms[name].entries else None)

    def held(self, entry, at=None):
        if is_literal(entry):
            return constant(entry)
        name, place = self.place_of(entry, at)
        if name in self.deck.views:
            structure, first, last = self.deck.views[name]
            return self.forms[name].held(self.forms[name].read(structure.text[first - 1 : last]))
        return self.forms[name].held(self.values[name] if place is None else self.values[name][place])

    def put(self, entry, value, at=None):
        self.put_at(*self.place_of(entry, at), value)

    def put_at(self, name, place, value):
        if name in self.deck.views:
            structure, first, last = self.deck.views[name]
            form = self.forms[name]
            text = unzoned(value, form.length) if form.is_number else value
            structure.text = structure.text[: first - 1] + text + structure.text[last:]
        elif place is None:
            self.values[name] = value
        else:
            self.values[name][place] = value

    def show(self, indicators, hits):
        """Turns indicators off, and on those whose condition is met."""
        self.on.difference_update(indicators)
        for indicator, is_hit in zip(indicators, hits):
            if indicator and is_hit:
                self.on.add(indicator)
                for paper in self.papers.values():
                    paper.overflow_waits = paper.overflow_waits or indicator == paper.overflow

    # ---- operations

    def operand(self, factor, other, at=None):
        """A factor, which is of the size of the other operand if it is figurative."""
        return figurative(factor, other) if factor[0] == "*" else self.held(factor, at)

    def store(self, it, number, at=None):
        self.put(it.result, number, at)
        self.show(it.indicators, signs(number))

    def calculated(self, it, at=None):
        """Arithmetic and moves, with entry `at` of whole arrays."""
        target = self.held(it.result, at)
        if it.operation in ("MOVE", "MOVEL"):
            self.put(it.result, moved(it.operation, self.operand(it.factor_2, target, at), target), at)
        elif it.operation == "MVR":
            self.store(it, self.remainder_for(target), at)
        elif it.operation == "SQRT":
            self.put(it.result, kept(root_of(self.held(it.factor_2, at), target.places), target.length), at)
        else:
            second = self.operand(it.factor_2, target, at)
            first = self.held(it.factor_1, at) if it.factor_1 else target
            self.store(it, self.result_of(it, first, second, target), at)

    def remainder_for(self, target):
        number, places = self.remainder
        more = target.places - places
        return kept(number * 10**more if more >= 0 else cut(number, 10**-more), target.length)

    def result_of(self, it, first, second, target):
        """The number that an operation of arithmetic stores."""
        number, divisor = fraction_of(it.operation, first, second)
        if divisor == 0:
            raise Halt("halt 1")
        if divisor < 0:
            number, divisor = -number, -divisor
        number *= 10**target.places
        quotient = rounded(number, divisor) if it.is_half_adjusted else cut(number, divisor)
        if it.operation == "DIV" and not it.is_half_adjusted:
            places = max(first.places, second.places + target.places)
            taken = second.value * quotient * 10 ** (places - second.places - target.places)
            self.remainder = first.value * 10 ** (places - first.places) - taken, places
        return kept(quotient, target.length)

    def compare(self, it):
        if it.factor_1[0] == "*":
            right = self.held(it.factor_2)
            left = figurative(it.factor_1, right)
        else:
            left = self.held(it.factor_1)
            right = self.operand(it.factor_2, left)
        self.show(it.indicators, signs(compared(left, right)))

    def sum_up(self, it):
        array, target = self.forms[it.factor_2], self.held(it.result)
        number, divisor = sum(self.values[it.factor_2]) * 10**target.places, 10**array.places
        quotient = rounded(number, divisor) if it.is_half_adjusted else cut(number, divisor)
        self.store(it, kept(quotient, target.length))

    def move_characters(self, it):
        """MOVEA: characters from left to right, over the entries from the named one on."""
        source, target = self.entries_from(it.factor_2), self.entries_from(it.result)
        text = "".join(self.values[source[0]][source[1] :]) if source else self.held(it.factor_2).value
        if not target:
            old = self.held(it.result).value
            self.put(it.result, (text + old[len(text) :])[: len(old)])
            return
        name, first = target
        length, old = self.forms[name].length, "".join(self.values[name][first:])
        new = (text + old[len(text) :])[: len(old)]
        self.values[name][first:] = [new[at : at + length] for at in range(0, len(new), length)]

    def entries_from(self, entry):
        """An array and its first entry that MOVEA takes; None for anything else."""
        if is_literal(entry) or not self.deck.is_array(entry.split(",")[0]):
            return None
        name, first = self.place_of(entry, 0)
        return name, first

    def search(self, it):
        """LOKUP: what is found becomes current in both tables, and its place goes to an index that is a field."""
        name, _, index = it.factor_2.partition(",")
        first = self.place_of(it.factor_2)[1] if index else 0
        found, hits = self.found(it, name, first)
        self.show(it.indicators, hits)
        if index and not index.isdigit():
            self.values[index] = 1 if found is None else found + 1
        for table in (name, it.result):
            if found is not None and table in self.current:
                self.current[table] = found

    def found(self, it, name, first):
        """The entry that a search finds, and whether it is high, low or equal."""
        form = self.forms[name]
        wanted = self.operand(it.factor_1, form.held(None))
        orders = {at: compared(form.held(self.values[name][at]), wanted) for at in range(first, form.entries)}
        high, low, equal = ([at for at, order in orders.items() if order == way] for way in (1, -1, 0))
        if it.indicators[2] and equal:
            return equal[0], (False, False, True)
        if it.indicators[0] and high:
            return high[0], (True, False, False)
        if it.indicators[1] and low:
            return low[-1], (False, True, False)
        return None, (False, False, False)

    def operate(self, it):
        """An operation that goes on at the next calculation."""
        if it.operation in ("SETON", "SETOF"):
            self.show(it.indicators, (it.operation == "SETON",) * 3)
        elif it.operation == "COMP":
            self.compare(it)
        elif it.operation == "LOKUP":
            self.search(it)
        elif it.operation == "XFOOT":
            self.sum_up(it)
        elif it.operation == "EXCPT":
            self.put_out("E")
        elif it.operation == "MOVEA":
            self.move_characters(it)
        elif self.deck.is_array(it.result):
            arrays = [name for name in (it.factor_1, it.factor_2, it.result) if self.deck.is_array(name)]
            for at in range(min(self.forms[name].entries for name in arrays)):
                self.calculated(it, at)
        else:
            self.calculated(it)

    # ---- calculations

    def calculate(self, section):
        calculations, back = self.deck.calculations, []
        at = next((at for at, it in enumerate(calculations) if it.section == section), len(calculations))
        while at < len(calculations) and (back or calculations[at].section == section):
            it = calculations[at]
            at += 1
            if it.operation == "ENDSR":
                at = back.pop()
            elif self.is_done(it):
                self.spend()
                if it.operation == "EXSR":
                    back.append(at)
                if it.operation in ("EXSR", "GOTO"):
                    at = self.deck.labels[it.factor_2]
                else:
                    self.operate(it)

    def is_done(self, it):
        """Whether there is something to do, by the level and the conditions."""
        if it.operation in ("TAG", "BEGSR", "DEBUG"):
            return False
        return (it.level in ("", "SR") or it.level in self.on) and any(self.holds(conditions) for conditions in it.alternatives)

    def spend(self):
        self.spent += 1
        if self.spent > MOST_CALCULATIONS:
            raise Halt("halt 5")

    # ---- lines

    def put_out(self, times, at_overflow=None):
        """The lines of some times; of a printer at its overflow, that one's alone."""
        for line in self.deck.lines:
            if line.time in times and at_overflow in (None, line.file):
                self.put_out_line(line, at_overflow is not None)

    def put_out_line(self, line, at_overflow):
        file, paper = self.deck.files[line.file], self.papers.get(line.file)
        if file.switch and file.switch not in self.on:
            return
        chosen = next((it for it in line.alternatives if self.is_meant(line, it.conditions, at_overflow) and self.holds(it.conditions)), None)
        if chosen is None:
            return
        if line.fetches and not at_overflow and paper and paper.overflow in self.on and paper.overflow_waits:
            self.put_out_overflow(line.file)
        text, columns, blanked = self.assembled(line)
        if paper:
            self.print_line(paper, text, chosen.movement or line.movement)
        elif file.is_rewritten:
            self.rewrite(file.name, text, columns)
        else:
            self.disks[line.file] = self.disks.get(line.file, "") + text[: file.length] + "\n"
        for name, place in blanked:
            self.put_at(name, place, self.forms[name].nothing())

    def rewrite(self, file, text, columns):
        """The record of a file that was chosen last, with the columns that a line has."""
        records, at = self.records.all[file], self.records.counts[file] - 1
        records[at] = "".join(text[it] if it in columns else old for it, old in enumerate(records[at]))

    def is_meant(self, line, conditions, at_overflow):
        """Whether lines of this kind go out now: overflow lines at overflow, others not; exceptions whatever they ask for."""
        if line.file not in self.papers:
            return not at_overflow
        overflow = self.papers[line.file].overflow
        asks = bool(overflow) and any(it.indicator == overflow and not it.is_negated for it in conditions)
        return line.time == "E" or asks == at_overflow

    def put_out_overflow(self, printer):
        for times in ("T", "HD"):
            self.put_out(times, at_overflow=printer)
        # what the movements of its own lines turn on doesn't count
        paper = self.papers[printer]
        paper.overflow_waits, paper.overflow_is_new, paper.overflow_is_done = False, False, True

    def print_line(self, paper, text, movement):
        columns = (movement[0], movement[1], movement[2:4], movement[4:])
        space_before, space_after, skip_before, skip_after = (int(it) if it.strip() else 0 for it in columns)
        if not movement.strip():
            space_after = 1
        self.move(paper, skip_before, space_before)
        paper.place(text.rstrip())
        self.move(paper, skip_after, space_after)

    def move(self, paper, skip, space):
        reached = bool(skip) and paper.skip(skip)
        reached = bool(space) and paper.space(space) or reached
        if reached and paper.overflow:
            self.on.add(paper.overflow)
            paper.overflow_waits, paper.overflow_is_new = True, True

    def assembled(self, line):
        """The text of a line, the columns that it has, counted from 0, and which entries are blank after it."""
        text, columns, blanked, greatest_end, above = [" "] * MOST_COLUMNS, set(), [], 0, None
        for it in line.fields:
            if it.name == "*PLACE" and above is None:
                above = text[:greatest_end]
            if it.name in PAGES:
                part = self.page_number(it)
            elif not self.holds(it.conditions):
                part = None
            else:
                part = above if it.name == "*PLACE" else self.field_text(it)
            if part is not None:
                text[it.end - len(part) : it.end] = list(part)
                columns.update(range(it.end - len(part), it.end))
                blanked += self.blanked_by(it)
            greatest_end = max(greatest_end, it.end)
        return "".join(text), columns, blanked

    def page_number(self, it):
        """The next page. Its conditions set the counter back first."""
        number = 0 if it.conditions and self.holds(it.conditions) else self.values[it.name]
        self.values[it.name] = (number + 1) % 10000
        return edited(self.forms[it.name], self.values[it.name], it.code or ("Z" if it.word is None else ""), it.word)

    def field_text(self, it):
        if not it.name:
            return it.word
        if not self.deck.is_array(it.name):
            return edited(self.forms[it.name.split(",")[0]], self.held(it.name).value, it.code, it.word)
        between = "  " if it.code else ""
        return between.join(edited(self.forms[it.name], value, it.code, it.word) for value in self.values[it.name])

    def blanked_by(self, it):
        if not it.is_blanked or it.name in ("", "*PLACE"):
            return []
        if self.deck.is_array(it.name):
            return [(it.name, at) for at in range(self.forms[it.name].entries)]
        return [self.place_of(it.name)]

    # ---- the cycle

    def run(self, records):
        """`records` has those of each input file by its name."""
        ending, self.records = "end", Records(self.deck, records)
        try:
            self.cycles(self.records)
        except Halt as halt:
            ending = str(halt)
        for file, rows in self.records.all.items():
            if self.deck.files[file].is_rewritten:
                self.disks[file] = "".join(it + "\n" for it in rows)
        printed = self.papers[self.deck.printer.name].ended() if self.deck.printer else ""
        return Course(ending, printed, self.disks, self.records.counts)

    def cycles(self, records):
        has_levels = any(it.level for record_type in self.deck.types for it in record_type.fields)
        is_first = True
        while True:
            self.begin()
            file, taken = records.next() if "LR" not in self.on else (None, None)
            levels = self.break_levels(taken)
            if "LR" in self.on or not (is_first or has_levels and not self.had_levels):
                self.calculate("total")
                self.put_out("T")
            is_first = False
            self.had_levels = self.had_levels or bool(levels)
            if "LR" in self.on or taken is None:
                return
            for name, paper in self.papers.items():
                if paper.overflow in self.on and (paper.overflow_waits or not paper.overflow_is_done):
                    self.put_out_overflow(name)
            self.on.discard("MR")
            if records.is_matching(file, taken):
                self.on.add("MR")
            self.look_ahead(records, file)
            self.move_fields(taken)
            self.calculate("detail")

    def begin(self):
        """Heading and detail lines, halt indicators, and what goes off before a record."""
        self.spent = 0
        done = [it for it in self.papers.values() if it.overflow_is_done]
        for paper in done:
            paper.overflow_is_done = False
        self.put_out("HD")  # a line that fetches overflow here leaves nothing for the overflow of the next cycle
        for paper in done:
            if not paper.overflow_is_new:
                self.on.discard(paper.overflow)
        if any(it[0] == "H" for it in self.on):
            raise Halt("halt 6")
        typed = {it.indicator for record_type in self.deck.types for it in record_type.alternatives}
        self.on -= (typed - {"LR"}) | {"1P", *LEVELS}

    def break_levels(self, taken):
        """Turns on the indicators of a record's type and levels; returns the control fields of each level."""
        if taken is None:
            self.on |= {"LR", *LEVELS}
            return {}
        if taken.alternative.indicator:
            self.on.add(taken.alternative.indicator)
        levels = {}
        for it in taken.fields:
            if it.level:
                level = int(it.level[1])
                levels[level] = levels.get(level, "") + without_signs(it.text_of(taken.record), it.decimals)
        highest = max([level for level, value in levels.items() if self.groups.get(level) != value], default=0)
        self.on.update(LEVELS[:highest])
        self.groups.update(levels)
        return levels

    def look_ahead(self, records, chosen):
        """Fields of the next records."""
        for record_type in self.deck.types:
            if record_type.is_ahead:
                record = records.ahead(record_type.file, chosen)
                for it in record_type.fields:
                    self.put(it.name, self.forms[it.name].read(it.text_of(record)))

    def move_fields(self, taken):
        for it in taken.fields:
            text = it.text_of(taken.record)
            form = self.forms[it.name.split(",")[0]]
            if self.deck.is_array(it.name):
                for at in range(len(text) // form.length):
                    self.values[it.name][at] = form.read(text[at * form.length : (at + 1) * form.length])
                continue
            value = form.read(text)
            self.put(it.name, value)
            self.show(it.indicators, signs(value) if form.is_number else (False, False, not value.strip()))


def root_of(number, places):
    """The square root of a number with some places, rounded."""
    if number.value < 0:
        raise Halt("halt 1")
    square = Decimal(number.value).scaleb(2 * places - number.places)
    return int((Context(prec=60).sqrt(square) + Decimal("0.5")).to_integral_value(ROUND_FLOOR))


def fraction_of(operation, first, second):
    """The exact result of an operation, as a number and its divisor."""
    if operation in ("ADD", "SUB"):
        left, right = first.value * 10**second.places, second.value * 10**first.places
        return (left + right if operation == "ADD" else left - right), 10 ** (first.places + second.places)
    if operation == "MULT":
        return first.value * second.value, 10 ** (first.places + second.places)
    if operation == "DIV":
        return first.value * 10**second.places, second.value * 10**first.places
    return (second.value if operation == "Z-ADD" else -second.value), 10**second.places
