#!/usr/bin/env python3
"""Tries the wrong bodies of crates/NAME/refused/*.edit against the contracts, those of a crate in one check.

usage, at the top of the repository, after `rt ci` (or `rt all check`), which builds the libraries:
    tests/edits.py [--jobs N] [--log FILE] [--controls] [--listed FILE | CRATE..]

An edit file has lines 'file: PATH', 'old: TEXT', 'new: TEXT'; further pairs apply to what the earlier ones made. It turns the body of the
function that has its first text, or of the one that a line 'fn: PATH' names. The edits of a crate are tried together, in as few
rounds as keep them apart: one edit a function, and no two whose texts touch. A round is one `rattle check --only FUNCTION ..` of a copy.

An edit is refused where the prover names a goal of its function that it did not prove, or where the function's written proof fits no
longer (which is a weaker result: a harmless change of form can do that too). Where the prover reports of a function only that it calls a
turned one, its edit goes into a later round. All else fails: an edit that is still proved, one that doesn't compile, and one that is
refused only since a proof names what the edit took away.

With --controls the same functions are tried as they are: each must be proved, or the refusals show nothing. With --listed only the edits
are tried that a file lists as CRATE/NAME, a line each.

The last line is 'N passed, M failed'.
"""

import argparse
import difflib
import os
import re
import shutil
import subprocess
import sys
import tempfile
from concurrent.futures import ThreadPoolExecutor
from dataclasses import dataclass
from enum import Enum
from pathlib import Path

from functions import function_at, plain_functions, without_body

KIT = Path(os.path.realpath(shutil.which("rt") or sys.exit("there is no rt"))).parent.parent
HOLE = """use Rattle.{crate}.proofs.{path}.Statement.{{statement}}

pub {name}_spec : {{M : Type 1}} → statement M
{name}_spec = ?
"""
NO_SUCH_NAME = re.compile(r"has no field|is not in scope|has no `|was not admitted|which was rejected")


class Verdict(Enum):
    """The result of a try of an edit."""

    REFUSED = "refused"
    BY_PROOF = "refused by its function's written proof"
    BY_NAME = "REFUSED BY NAMES ALONE: change a value, and keep the names"
    PROVED = "its function is proved"
    UNKNOWN = "NOT TRIED"

    @property
    def is_good(self):
        return self in (Verdict.REFUSED, Verdict.BY_PROOF)


@dataclass(frozen=True)
class Cut:
    """Lines of a source that an edit replaces."""

    file: str
    start: int
    end: int
    new: str

    def touches(self, other):
        return self.file == other.file and self.start < other.end and other.start < self.end


@dataclass(frozen=True)
class Edit:
    """A wrong body: its file, the functions that it turns, and its cuts."""

    path: Path
    functions: tuple
    cuts: tuple

    def fits_beside(self, other):
        apart = not set(self.functions) & set(other.functions)
        return apart and not any(one.touches(two) for one in self.cuts for two in other.cuts)


@dataclass(frozen=True)
class Crate:
    """A crate of crates.txt, with all libraries of the repository that it reaches."""

    name: str
    uses: tuple
    below: tuple

    @property
    def folder(self):
        return Path("crates", self.name)


def crates_of(text):
    """The crates of crates.txt by name."""
    rows = [row for line in text.splitlines() if (row := line.partition("#")[0].strip())]
    uses = {row.partition(":")[0].split()[0]: tuple(row.partition(":")[2].split()) for row in rows}

    def below(name):
        found = {}
        for it in uses[name]:
            if it in uses:
                found |= dict.fromkeys([it, *below(it)])
        return tuple(found)

    return {name: Crate(name, uses[name], below(name)) for name in uses}


def changed(crate, path):
    """The sources that an edit names, by their paths, before and after it, and the functions that its lines 'fn:' name."""
    before, after, functions, file, old = {}, {}, [], None, None
    for line in path.read_text(encoding="utf-8").split("\n"):
        word, _, text = line.partition(":")
        text = text.removeprefix(" ")
        if word == "fn":
            functions.append(text)
        elif word == "file":
            file = text
            before.setdefault(file, (crate.folder / file).read_text(encoding="utf-8"))
            after.setdefault(file, before[file])
        elif word == "old":
            old = text
        elif word == "new":
            if file is None or not old or after[file].count(old) != 1:
                sys.exit(f"{path}: its text must stand once in {file}")
            after[file] = after[file].replace(old, text)
    return before, after, functions


def read_edit(crate, path):
    before, after, functions = changed(crate, path)
    cuts, own = [], []
    for file, text in before.items():
        one, two = text.splitlines(True), after[file].splitlines(True)
        starts = [0]
        for line in one:
            starts.append(starts[-1] + len(line))
        for tag, a, b, c, d in difflib.SequenceMatcher(None, one, two, False).get_opcodes():
            if tag != "equal":
                cuts.append(Cut(file, starts[a], starts[b], "".join(two[c:d])))
                indent = len(one[a]) - len(one[a].lstrip()) if a < len(one) else 0
                own.append(function_at(file, text, starts[a] + indent))
    if not cuts or not functions and None in own:
        sys.exit(f"{path}: it has to change a function's body, or name its function by a line 'fn:'")
    return Edit(path, tuple(dict.fromkeys(functions or own)), tuple(cuts))


def copied(crate, room):
    """Copies the crate into the room."""
    for part in ("src", "specs", "proofs"):
        if (crate.folder / part).is_dir():
            shutil.copytree(crate.folder / part, room / part)


def spoil(edits, room):
    """Applies the edits to the copy in the room."""
    for cut in sorted((it for edit in edits for it in edit.cuts), key=lambda it: it.start, reverse=True):
        text = (room / cut.file).read_text(encoding="utf-8")
        (room / cut.file).write_text(text[: cut.start] + cut.new + text[cut.end :], encoding="utf-8")


def as_library(room):
    """Calls the `main` of a program otherwise: its copy is then a library, whose check links no code of the libraries below."""
    root = room / "src/main.rt"
    if root.is_file():
        root.write_text(re.sub(r"^fn main\(", "pub fn begin(", root.read_text(encoding="utf-8"), flags=re.M), encoding="utf-8")


def with_holes(crate, edits, room, keeps_bodies):
    """Leaves of each function that no edit turns only the contract: its body is gone, unless bodies are kept, and a hole stands in the place of its
    proof. Functions whose theorems have parameters of types are left as they are."""
    turned = {it for edit in edits for it in edit.functions}
    sources = {str(it.relative_to(room)): it.read_text(encoding="utf-8") for it in sorted(room.glob("src/**/*.rt"))}
    others = [it for it in plain_functions(sources) if not any(it[2] == one or it[2].endswith(f"::{one}") for one in turned)]
    for place, function, _ in [] if keeps_bodies else sorted(others, key=lambda it: it[1].start, reverse=True):
        (room / place).write_text(without_body((room / place).read_text(encoding="utf-8"), function), encoding="utf-8")
    for _, _, path in others:
        folder = room / "proofs" / path.replace("::", "/")
        folder.mkdir(parents=True, exist_ok=True)
        for file in ("Answers.antt", "Invariants.antt"):
            (folder / file).unlink(missing_ok=True)
        hole = HOLE.format(crate=crate.name, path=path.replace("::", "."), name=path.split("::")[-1])
        (folder / "Proof.antt").write_text(hole, encoding="utf-8")


def words_of(crate, edits):
    """The words of rattle's check of the functions that these edits turn."""
    rlib = lambda it: Path("crates", it, "out/rlib", f"{it}.rlib").absolute() if it in crate.below else KIT / "rlibs" / f"{it}.rlib"
    source = "src/main.rt" if (crate.folder / "src/main.rt").is_file() else "src/lib.rt"
    words = ["--crate-name", crate.name, source, "--jobs", "1", "--links", f"{crate.name}="]
    for it in ("std", *crate.uses):
        words += ["--extern", f"{it}={rlib(it)}"]
    for folder in (KIT / "rlibs", *(rlib(it).parent for it in crate.below)):
        words += ["-L", f"dependency={folder}"]
    words += ["--antt-project", KIT / "rattle/logic/antt-project.json", "--logic-built", KIT / "logic_built"]
    words += ["--allow-holes"]
    for function in sorted({it for edit in edits for it in edit.functions}):
        words += ["--only", function]
    return words


def check(crate, edits, controls, log, keeps_bodies=False):
    """What rattle prints for the crate with these edits, or for their functions as they are."""
    with tempfile.TemporaryDirectory(prefix="edits-") as name:
        room = Path(name)
        copied(crate, room)
        if not controls:
            spoil(edits, room)
        as_library(room)
        with_holes(crate, edits, room, keeps_bodies)
        words = words_of(crate, edits)
        how = {"stdin": subprocess.DEVNULL, "stdout": subprocess.PIPE, "stderr": subprocess.STDOUT}
        printed = subprocess.run([KIT / "bin/rattle", "check", *words], cwd=room, text=True, errors="replace", check=False, **how).stdout
    if re.search(r"module .Rattle-\w+-.*Run the lower steps again", printed):
        sys.exit(f"{crate.name}: a library below it was built by other means: run rt ci first")
    if log:
        with log.open("a", encoding="utf-8") as file:
            file.write(f"===== {crate.name}, {len(edits)} edits\n{printed}\n")
    return printed


def verdict(crate, edit, printed):
    """The verdict of rattle's lines on an edit, or None where they have none on its own function."""
    lines = dict(re.findall(rf"^fn {crate.name}::(\S+): (.*)$", printed, re.M))
    states, found = [], None
    for named in edit.functions:
        function = next((it for it in lines if it == named or it.endswith(f"::{named}")), named)
        states.append(lines.get(function, ""))
        if re.match(r"no proof: .*did not prove", states[-1]):
            return Verdict.REFUSED
        proof = re.escape(f"proofs/{function.replace('::', '/')}/")
        errors = re.findall(rf"^(?:\./)?{proof}[^/\s]+:\d+:\d+: error: (.*)$", printed, re.M)
        if states[-1].startswith("not proved") and errors:
            by_name = all(NO_SUCH_NAME.search(it) for it in errors)
            found = Verdict.BY_NAME if by_name and found is None else Verdict.BY_PROOF
    return found or (Verdict.PROVED if all(it.startswith(("no holes", "depends on a hole")) for it in states) else None)


def rounds_of(edits):
    """The edits in as few rounds as keep them apart."""
    rounds = []
    for edit in edits:
        place = next((it for it in rounds if all(edit.fits_beside(other) for other in it)), None)
        if place is None:
            rounds.append([edit])
        else:
            place.append(edit)
    return rounds


def rounds_left(crate, taken, left, printed):
    """The rounds for the edits that a round gave no verdict of."""
    if not left:
        return []
    if re.search(rf"^fn {crate.name}::", printed, re.M):
        return [left] if len(left) < len(taken) else [[it] for it in left]
    # the crate doesn't compile: the edits in the files that the errors name are tried alone
    files = set(re.findall(r"(src/\S+?\.rt):\d+", printed))
    alone = [it for it in left if files & {cut.file for cut in it.cuts}] or left
    others = [it for it in left if it not in alone]
    return [*([others] if others else []), *([it] for it in alone)]


def edits_of(crates, listed, names):
    """The edit files by crate: those that a list has, or all of the crates with these names, or of all crates."""
    found = {it: sorted((it.folder / "refused").glob("*.edit")) for it in crates.values() if it.name in (names or crates)}
    if listed:
        lines = {it for it in listed.read_text(encoding="utf-8").splitlines() if it and not it.startswith("#")}
        found = {crate: [it for it in files if f"{crate.name}/{it.stem}" in lines] for crate, files in found.items()}
        if sum(map(len, found.values())) != len(lines):
            sys.exit(f"{listed}: each line must name an edit, as CRATE/NAME")
    return {crate: files for crate, files in found.items() if files}


def tried(crate, files, log, controls=False):
    """Tries a crate's edits, or their functions as they are, and gives the verdicts."""
    rounds = rounds_of([read_edit(crate, it) for it in files])
    found = []
    while rounds:
        taken, left = rounds.pop(0), []
        printed = check(crate, taken, controls, log)
        for edit in taken:
            word = verdict(crate, edit, printed)
            if word is None and len(taken) > 1:
                left.append(edit)
                continue
            if word is None:
                # where the crate doesn't compile without bodies, it is tried with them
                printed = check(crate, taken, controls, log, keeps_bodies=True)
                word = verdict(crate, edit, printed) or Verdict.UNKNOWN
            found.append(word)
            reason = f": {printed.strip()[-300:]}" if word is Verdict.UNKNOWN else ""
            print(f"{edit.path} ({', '.join(edit.functions)}): {word.value}{reason}", flush=True)
        rounds += rounds_left(crate, taken, left, printed)
    return found


def main():
    parser = argparse.ArgumentParser(description=__doc__.split("\n", maxsplit=1)[0])
    parser.add_argument("crates", nargs="*", metavar="CRATE", help="the crates whose edits are tried; all where none is named")
    parser.add_argument("--listed", type=Path, metavar="FILE", help="a file that lists the edits to try")
    parser.add_argument("--jobs", type=int, default=len(os.sched_getaffinity(0)), help="how many crates are tried side by side")
    parser.add_argument("--log", type=Path, help="a file for what rattle prints")
    parser.add_argument("--controls", action="store_true", help="try the functions as they are, which must all be proved")
    words = parser.parse_args()
    crates = crates_of(Path("crates.txt").read_text(encoding="utf-8"))
    # the longest checks first
    size = lambda it: sum(file.stat().st_size for file in it.folder.glob("src/**/*.rt"))
    files = edits_of(crates, words.listed, words.crates)
    with ThreadPoolExecutor(words.jobs) as pool:
        tries = pool.map(lambda it: tried(it, files[it], words.log, words.controls), sorted(files, key=size, reverse=True))
        found = [it for of in tries for it in of]
    passed = sum(it is Verdict.PROVED if words.controls else it.is_good for it in found)
    if not words.controls:
        print(f"{sum(it is Verdict.BY_PROOF for it in found)} of the {passed} refused edits are refused by a written proof")
    print(f"{passed} passed, {len(found) - passed} failed")
    return 0 if found and passed == len(found) else 1


if __name__ == "__main__":
    sys.exit(main())
