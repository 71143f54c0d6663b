"""What the cards of sources mean, by the evaluator, compared with what rpg2 makes of them: worked rows, and random sources."""

import random
import tempfile
from collections.abc import Callable, Iterable
from dataclasses import dataclass
from functools import partial
from pathlib import Path

from cards import NotEvaluated, source_of
from case_file import Run, runs_in
from case_runs import beside, first_line
from chance import Rules
from evaluator import Course, evaluate
from outcome import Outcome
from program import Program

COUNT = 300
AT_ONCE = 25
ALLOWANCE = 20
DATE = "010576"


@dataclass(frozen=True)
class Job:
    """A source with an input."""

    place: str
    source: bytes
    input: bytes
    allowance: int


def meant(job: Job) -> Course:
    """What the cards mean. What the evaluator can't do is reported as an ending of its own."""
    try:
        return evaluate(source_of(job.source.decode("latin-1")), job.allowance, job.input)
    except NotEvaluated as why:
        return Course(f"not evaluated: {why}", 0, b"")


def done(program: Program, job: Job) -> Course:
    """What rpg2 does with the source: it is compiled and verified, and runs. Cards have no steps, so a line ends after the cycles."""
    with tempfile.TemporaryDirectory() as name:
        folder = Path(name)
        (folder / "source").write_bytes(job.source)
        (folder / "input").write_bytes(job.input)
        for words in (["compile", "source", "object", "--allowance", str(job.allowance)], ["verify", "object"]):
            line, status, errors = program.answer(words, folder)
            if status:
                return Course(f"{line}\n{errors}", 0, b"")
        line, _, errors = program.answer(["run", "object", "input", "print", "--date", DATE], folder)
        ending, _, rest = line.partition(", cycles ")
        cycles = rest.partition(",")[0]
        if not cycles.isdigit():
            return Course(f"{line}\n{errors}", 0, b"")
        return Course(ending, int(cycles), (folder / "print").read_bytes())


def difference(wanted: Course, came: Course) -> str | None:
    if came.line != wanted.line:
        return f"{came.line}, and not {wanted.line}"
    if came.print != wanted.print:
        return f"print, line {first_line(came.print, wanted.print)}{beside(came.print, wanted.print)}"
    return None


def compared(job: Job, who: str, wanted: Course, came: Course) -> Outcome:
    found = difference(wanted, came)
    if found is None:
        return Outcome(job.place, f"ok: {who}: {came.line}")
    shown = f"\n--- source\n{job.source.decode('latin-1')}--- input\n{job.input.decode('latin-1')}"
    return Outcome(job.place, f"DIFFERS: {who}: {found}", shown)


def shown_row(program: Program, run: Run) -> list[Outcome]:
    """A worked row, by the evaluator and by rpg2."""
    job = Job(run.place, run.source, run.input, run.allowance)
    ending, _, cycles = run.line.partition(", cycles ")
    wanted = Course(ending, int(cycles), run.print)
    return [compared(job, "the evaluator", wanted, meant(job)), compared(job, program.name, wanted, done(program, job))]


def shown_rows(program: Program, path: Path) -> list[Outcome]:
    return [outcome for run in runs_in(path) for outcome in shown_row(program, run)]


def made(rules: Rules, number: int) -> Job:
    """A random source, the same in each run."""
    chance = random.Random(f"source {number}")
    source = rules.made("source", chance).encode("latin-1")
    return Job(f"chance.rules, source {number}", source, rules.made("input", chance).encode("latin-1"), ALLOWANCE)


def shown_by_chance(program: Program, path: Path, numbers: range) -> list[Outcome]:
    rules = Rules(path)
    jobs = [made(rules, number) for number in numbers]
    return [compared(it, program.name, meant(it), done(program, it)) for it in jobs]


def shown_endings(path: Path) -> list[Outcome]:
    """Whether at least half of the sources reach their end: what halts at once shows little."""
    rules = Rules(path)
    ended = sum(meant(made(rules, number)).ending == "end of job" for number in range(COUNT))
    is_enough = ended >= COUNT // 2
    return [Outcome(path.name, f"{ended} of {COUNT} sources come to their end", None if is_enough else ": too few")]


def jobs_of(program: Program, folder: Path) -> Iterable[Callable[[], list[Outcome]]]:
    rules = folder / "chance.rules"
    yield partial(shown_rows, program, folder / "rows.cases")
    yield partial(shown_endings, rules)
    for first in range(0, COUNT, AT_ONCE):
        yield partial(shown_by_chance, program, rules, range(first, min(COUNT, first + AT_ONCE)))
