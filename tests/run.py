#!/usr/bin/env python3
"""Shows rpg2 as a user runs it: all cases, sessions and evaluated sources, once for each build of the program.

usage: tests/run.py [--only WORD] [--jobs N] [PROGRAM ..]

PROGRAM is a build of rpg2; if none is named, both that `rt ci` makes are run. --only WORD takes only files whose name has the word.
It prints a line for each failure, what was expected and what came, and last `N passed, M failed`. The exit status is 1 if anything failed,
or if nothing was run with a build. README.md describes how the files are written.
"""

import argparse
import os
import subprocess
import sys
import tempfile
from collections.abc import Callable, Iterable
from concurrent.futures import ProcessPoolExecutor
from functools import partial
from pathlib import Path

HERE = Path(__file__).resolve().parent
TOP = HERE.parent
sys.path += [str(TOP / "build"), str(TOP / "bench")]

import calls
import case_runs
import editors
import ends
import evaluated
import fits
import forms
import installed
import lay_out
import objects
import papers
import sessions
import shops
from case_file import Run, lines_in, runs_in
from outcome import Outcome
from program import Program

BUILDS = ["rpg2", "rpg2.by-rattle"]
AT_ONCE = 20

Job = Callable[[], list[Outcome]]


def shown_run(program: Program, run: Run) -> Outcome:
    with tempfile.TemporaryDirectory() as folder:
        try:
            return case_runs.show(program, Path(folder), run)
        except (OSError, subprocess.SubprocessError) as why:
            return Outcome(run.place, f"FAILS: {run.name}", f"\n{why}")


def shown_runs(program: Program, runs: list[Run]) -> list[Outcome]:
    return [shown_run(program, it) for it in runs]


def shown_told(program: Program, path: Path) -> list[Outcome]:
    """Runs or calls that expect something wrong: a file of the same name has the report of each."""
    is_cases = path.suffix == ".cases"
    outcomes = shown_runs(program, runs_in(path)) if is_cases else calls.in_order(program, path)
    wanted = lines_in(path.with_suffix(".told"))
    return [compared_lines(outcome, line) for outcome, line in zip(outcomes, wanted, strict=True)]


def compared_lines(outcome: Outcome, wanted: str) -> Outcome:
    is_told = outcome.line == wanted
    return Outcome(outcome.place, wanted, None if is_told else f"\n--- came\n{outcome.line}")


def case_jobs(program: Program, path: Path) -> Iterable[Job]:
    if path.with_suffix(".told").exists():
        yield partial(shown_told, program, path)
        return
    runs = [it for it in runs_in(path) if case_runs.is_for_rpg2(it)]
    for at in range(0, len(runs), AT_ONCE):
        yield partial(shown_runs, program, runs[at : at + AT_ONCE])


def written_files(folder: str, script: str, files: dict[str, str]) -> list[Outcome]:
    """Files that a script writes by a build: whether they have what it writes now."""
    are_same = {name: (TOP / folder / name).read_bytes() == text.encode() for name, text in files.items()}
    return [Outcome(f"{folder}/{it}", f"as {script} writes it", None if same else "\nit differs") for it, same in are_same.items()]


def installed_files(program: Program) -> list[Outcome]:
    """The files of install/, which come of the program's help."""
    return written_files("install", "build/installed.py", installed.files_of(program.path))


def laid_out_rows(program: Program) -> list[Outcome]:
    """The rows that rpg_show_cases does, which come of the cases that only calls show."""
    return written_files("crates/rpg_show_cases", "tests/lay_out.py", lay_out.laid_out(program))


def call_jobs(program: Program, path: Path) -> Iterable[Job]:
    if path.with_suffix(".told").exists():
        yield partial(shown_told, program, path)
        return
    yield from calls.jobs_of(program, path)


def jobs_of(program: Program, word: str) -> Iterable[Job]:
    """All that is shown of a build, in parts that don't depend on one another."""
    folders = [HERE / "cases", TOP / "crates/rpg_show_cases/data"]
    for path in sorted(it for folder in folders for it in folder.glob("*.cases") if word in it.name):
        yield from case_jobs(program, path)
    for path in sorted(it for it in (HERE / "sessions").glob("*.session") if word in it.name):
        yield partial(sessions.show, program, path, TOP)
        yield partial(objects.show, program, path, TOP)
    for path in sorted(it for it in (HERE / "calls").glob("*.calls") if word in it.name):
        yield from call_jobs(program, path)
    if word in "evaluated":
        yield from evaluated.jobs_of(program, HERE / "evaluated")
    if word in "forms":
        yield from forms.jobs_of(program)
    if word in "ends":
        yield from ends.jobs_of(program)
    if word in "fit":
        yield from fits.jobs_of(program, HERE / "fit")
    if word in "shops":
        yield from shops.jobs_of(program, HERE / "shops")
    if word in "editors":
        yield from editors.jobs_of(program)
    if word in "papers":
        yield from papers.jobs_of(program)
    if word in "installed":
        yield partial(installed_files, program)
    if word in "rows":
        yield partial(laid_out_rows, program)


def built(named: list[str]) -> list[Program]:
    paths = [Path(it) for it in named] or [TOP / "crates/rpg2/out" / it for it in BUILDS]
    missing = [str(it) for it in paths if not os.access(it, os.X_OK)]
    if missing:
        sys.exit(f"there is no {' and no '.join(missing)}: `rt ci` builds both")
    return [Program(it.resolve(), it.name) for it in paths]


def tell(program: Program, outcome: Outcome) -> None:
    if not outcome.has_passed:
        print(f"{program.name}, {outcome.place}: {outcome.line}{outcome.detail}", flush=True)


def show_all(programs: list[Program], word: str, processes: int | None) -> tuple[int, int]:
    """Shows all of each build, and returns how many passed and failed."""
    passed = failed = 0
    with ProcessPoolExecutor(processes) as pool:
        begun = {it: [pool.submit(job) for job in jobs_of(it, word)] for it in programs}
        for program, results in begun.items():
            outcomes = [outcome for it in results for outcome in it.result()]
            for outcome in outcomes:
                tell(program, outcome)
            good = sum(it.has_passed for it in outcomes)
            passed, failed = passed + good, failed + len(outcomes) - good
            if not outcomes:
                print(f"{program.name}: nothing is shown of it")
                failed += 1
    return passed, failed


def main() -> int:
    words = argparse.ArgumentParser(description=__doc__, formatter_class=argparse.RawDescriptionHelpFormatter)
    words.add_argument("programs", metavar="PROGRAM", nargs="*")
    words.add_argument("--only", metavar="WORD", default="")
    words.add_argument("--jobs", metavar="N", type=int)
    given = words.parse_args()
    passed, failed = show_all(built(given.programs), given.only, given.jobs)
    print(f"{passed} passed, {failed} failed")
    return 1 if failed else 0


if __name__ == "__main__":
    sys.exit(main())
