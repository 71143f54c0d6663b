#!/usr/bin/env python3
"""Tries wrong definitions: the proofs that the compiler's agree with those of what cards mean, and the equations and laws of operations, must refuse each.

usage, at the top of the repository, once the libraries stand (`rt ci`, or `rt all check`):
    bench/wrong_definitions.py [--libraries FOLDER ..] [--laws] [NAME..]

bench/wrong_definitions.txt has the wrong definitions, each an edit of a file of crates/*/specs. For each, the file is copied with its edit,
and so are the definitions above it and the proofs of the equations. All copies are checked in one go, as one crate in a folder of its own.
A wrong definition is refused if a proof over its copies isn't accepted. A control, which changes nothing, must be proved: a proof that
is refused for another reason shows there.

--laws tries the laws of rpg_operation_laws alone, for which only the libraries below that crate are needed. Their wrong definitions begin with P.
--libraries names further copies of the repository whose libraries may be used. The last line is 'N as wanted, M not'.
"""

import argparse
import os
import re
import shutil
import subprocess
import sys
import tempfile
from dataclasses import dataclass
from pathlib import Path

KIT = Path(os.path.realpath(shutil.which("rt") or sys.exit("there is no rt"))).parent.parent
CRATE = "wrong_definitions"
# the definitions that may be wrong, or that stand above such a one
DEFINITIONS = (
    "rpg_paper", "rpg_program", "rpg_cycle_records", "rpg_cards", "rpg_symbols", "rpg_faults_flow", "rpg_faults_operands", "rpg_faults_limits",
    "rpg_faults_data", "rpg_faults", "rpg_compile_program", "rpg_meaning", "rpg_operation_laws",
)
# the proofs of the laws, and all proofs, which are also those of the equations
LAWS = {
    "rpg_program": ("PlaceLaws", "Searches"),
    "rpg_operation_laws": ("Found", "Labels", "Lines", "Results"),
}
EQUATIONS = LAWS | {
    "rpg_cycle_records": ("Choosing", "Matches"),
    "rpg_meaning": (
        "Calculations.MeantLists", "Calculations.MeantFiles", "Calculations.MeantConstants", "Calculations.MeantSections", "Calculations.MeantForms",
        "Calculations.MeantLines", "Calculations.MeantCalculations", "Jobs.MeantTypes", "Jobs.MeantFirst", "Operations.Done",
    ),
}
# a file's name, after that of the tree that it is in
NAME = r"Rattle\.(\w+)\.(specs|proofs)\.((?:[A-Z]\w*\.)?\w+)\b"
USE = re.compile(rf"^(?:pub )?use {NAME}", re.M)


@dataclass(frozen=True)
class Module:
    """A file of definitions or of proofs."""

    crate: str
    part: str
    name: str

    @property
    def path(self):
        return Path("crates", self.crate, self.part, *self.name.split(".")).with_suffix(".antt")

    def copy(self, wrong):
        """The name of its copy for a wrong definition."""
        return "".join(word.capitalize() for word in self.crate.split("_")) + self.name.replace(".", "") + wrong


@dataclass(frozen=True)
class Wrong:
    """A wrong definition, or a control."""

    name: str
    text: str
    module: Module
    pairs: tuple

    def applied(self, text):
        for old, new in self.pairs:
            if text.count(old) != 1:
                sys.exit(f"{self.name}: its text must stand once in {self.module.path}: {old}")
            text = text.replace(old, new)
        return text


def wrong_definitions(text):
    for block in re.split(r"\n\s*\n", text):
        lines = [line for line in block.split("\n") if line and not line.startswith("#")]
        if lines:
            name, _, what = lines[0].partition(" ")
            olds = [line[2:].replace("\\n", "\n") for line in lines[2:] if line.startswith("- ")]
            news = [line[2:].replace("\\n", "\n") for line in lines[2:] if line.startswith("+ ")]
            yield Wrong(name, what, Module(lines[1].split()[0], "specs", lines[1].split()[1]), tuple(zip(olds, news, strict=True)))


def names_in(folder):
    """The names of a folder's files, each after that of the tree that it is in."""
    return [".".join(path.relative_to(folder).with_suffix("").parts) for path in folder.rglob("*.antt")]


def modules(proofs):
    """All modules that may be copied, with those of them that each uses."""
    every = {Module(crate, "specs", name) for crate in DEFINITIONS for name in names_in(Path("crates", crate, "specs"))}
    every |= {Module(crate, "proofs", name) for crate, names in proofs.items() for name in names}
    return {it: {Module(*found) for found in USE.findall(it.path.read_text(encoding="utf-8"))} & every for it in every}


def reached(start, uses):
    """What these modules use, directly or through others, and they themselves."""
    found, left = set(), list(start)
    while left:
        it = left.pop()
        if it not in found:
            found.add(it)
            left += uses[it]
    return found


def copied(wrong, uses):
    """The modules to be copied: those that reach the wrong one, as far as the equations reach them."""
    equations = [it for it in uses if it.part == "proofs"]
    return {it for it in reached(equations, uses) if wrong.module in reached([it], uses)}


def written(wrong, uses, room):
    """Writes the copies for a wrong definition into the room."""
    copies = copied(wrong, uses)

    def renamed(found):
        it = Module(*found.groups())
        return f"Rattle.{CRATE}.{it.part}.{it.copy(wrong.name)}" if it in copies else found[0]

    for it in copies:
        text = it.path.read_text(encoding="utf-8")
        text = wrong.applied(text) if it == wrong.module else text
        text = re.sub(rf"\b{NAME}", renamed, text)
        (room / it.part / f"{it.copy(wrong.name)}.antt").write_text(text, encoding="utf-8")


def library(crate, folders):
    for folder in folders:
        path = Path(folder, "crates", crate, "out/rlib", f"{crate}.rlib").absolute()
        if (path / "format").exists():
            return path
    sys.exit(f"there is no library of {crate}: run rt ci, or name a copy of the repository that has it by --libraries")


def checked(room, proofs, folders):
    """What rattle prints of the room."""
    rows = [row for line in Path("crates.txt").read_text().splitlines() if (row := line.partition("#")[0].strip())]
    uses = {row.partition(":")[0].split()[0]: row.partition(":")[2].split() for row in rows}
    wanted, left = {}, list(proofs)
    while left:
        it = left.pop()
        if it in uses and it not in wanted:
            wanted[it] = library(it, folders)
            left += uses[it]
    others = sorted({it for name in wanted for it in uses[name] if it not in uses})
    words = ["--crate-name", CRATE, "src/lib.rt", "--jobs", "1", "--links", f"{CRATE}="]
    for it in ("std", *others):
        words += ["--extern", f"{it}={KIT}/rlibs/{it}.rlib"]
    words += ["-L", f"dependency={KIT}/rlibs"]
    for it, path in wanted.items():
        words += ["--extern", f"{it}={path}", "-L", f"dependency={path.parent}"]
    words += ["--antt-project", KIT / "rattle/logic/antt-project.json", "--logic-built", KIT / "logic_built"]
    how = {"stdin": subprocess.DEVNULL, "stdout": subprocess.PIPE, "stderr": subprocess.STDOUT}
    return subprocess.run([KIT / "bin/rattle", "check", *words], cwd=room, text=True, errors="replace", check=False, **how).stdout


def verdict(wrong, uses, printed):
    """Whether it is as wanted, and the lemmas that were refused."""
    names = {part: [it.copy(wrong.name) for it in copied(wrong, uses) if it.part == part] for part in ("specs", "proofs")}
    errors = lambda part: re.findall(rf"^(?:\./)?{part}/(?:{'|'.join(names[part])})\.antt:\d+:\d+: error: (.*)$", printed, re.M)
    if errors("specs"):
        return False, f"BROKEN: {errors('specs')[0]}"
    refused = errors("proofs")
    lemmas = ", ".join(dict.fromkeys(it for line in refused for it in re.findall(r"^`([^`]+)`", line))) or (refused[0] if refused else "")
    if wrong.pairs:
        return bool(refused), f"refused at {lemmas}" if refused else "NOT REFUSED"
    return not refused, f"REFUSED at {lemmas}" if refused else "proved"


def main():
    words = argparse.ArgumentParser(usage=__doc__)
    words.add_argument("--libraries", action="append", default=[])
    words.add_argument("--laws", action="store_true")
    words.add_argument("names", nargs="*")
    words = words.parse_args()
    proofs = LAWS if words.laws else EQUATIONS
    uses = modules(proofs)
    all_wrong = [it for it in wrong_definitions(Path("bench/wrong_definitions.txt").read_text(encoding="utf-8")) if not words.names or it.name in words.names]
    all_wrong = [it for it in all_wrong if not words.laws or it.name.startswith("P")]
    with tempfile.TemporaryDirectory(prefix="wrong-") as name:
        room = Path(name)
        for part in ("src", "specs", "proofs"):
            (room / part).mkdir()
        (room / "src/lib.rt").write_text("//! Copies of definitions and proofs.\n#![tactic(auto)]\n")
        for it in all_wrong:
            written(it, uses, room)
        for part in ("specs", "proofs"):
            (room / part / "Lib.antt").write_text("".join(f"pub mod {it.stem}\n" for it in sorted((room / part).glob("*.antt"))))
        printed = checked(room, proofs, [".", *words.libraries])
        if os.environ.get("KEEP"):
            Path(os.environ["KEEP"]).write_text(printed)
        if not re.search(r"^logic=", printed, re.M):
            sys.exit(f"the check didn't run to its end:\n{printed}")
    wanted = 0
    for it in all_wrong:
        good, text = verdict(it, uses, printed)
        wanted += good
        print(f"{it.name}  {it.module.crate} {it.module.name}  {it.text}: {text}")
    print(f"{wanted} as wanted, {len(all_wrong) - wanted} not")
    sys.exit(wanted != len(all_wrong))


if __name__ == "__main__":
    main()
