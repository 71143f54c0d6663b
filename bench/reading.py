#!/usr/bin/env python3
"""Which definitions a contract rests on: those that its clauses name, and those that these name in turn.

usage, at the top of the repository:
    bench/reading.py [execute|compile|meaning|operations|shared|bookkeeping]

For each contract it prints its crates in the order of crates.txt, with the files of specs/ that have such definitions (a file after those
that it uses) and how many definitions and lines these are, without comments and `use` lines. docs/develop/READING.md has the lists.

`shared` prints the definitions that the compiled program is made of: first those that the meaning of cards isn't made of, so that the proof
compares them with it, and then those that are one text for both. docs/develop/PROOFS.md has the counts.

`bookkeeping` prints for each crate the files of specs/ that no list needs at all, and the definitions that no list needs in its other files:
these are for the contracts of calls inside the product, and for laws. It isn't among what is printed without a word.
"""

import re
import sys
from collections import defaultdict
from functools import cache
from graphlib import TopologicalSorter
from pathlib import Path

# a contract: the file, the name of its function, and clauses that are left out, because another list has what they rest on
CONTRACTS = {
    "execute": ("crates/rpg_engine/src/engine.rt", "execute", ()),
    "compile": ("crates/rpg_compile/src/source.rt", "compile", ()),
    "meaning": ("crates/rpg_meaning/src/run.rt", "run_source", ("program",)),
    "operations": ("crates/rpg_meaning/src/operation_laws.rt", "operations_do", ()),
}
# the program that is compiled, and what its run is compared with
PROGRAM = [(("rpg_compile_program", "Program"), "program_of")]
MEANING = [(("rpg_meaning", "Jobs.Sources"), "job_of"), (("rpg_meaning", "Jobs.Start"), "IsStart"), (("rpg_meaning", "Jobs.Runs"), "IsMeantRun")]
USE = re.compile(r"^\s*(?:ghost )?(?:pub )?use Rattle\.(\w+)\.specs\.([\w.]+?)(?:\.\{(.*)\}|\s+as\s+(\S+?))?;?\s*$")
WORD = re.compile(r"[^\s(){}\[\],;λ→:]+")


def uses_of(lines):
    """What the `use` lines bring in: names with where they are defined, and modules by another name."""
    names, modules = {}, {}
    for line in lines:
        if found := USE.match(line):
            module = (found[1], found[2])
            if found[4]:
                modules[found[4]] = module
            for it in (found[3] or "").split(","):
                name, _, other = it.strip().partition(" as ")
                if name:
                    names[other or name] = (module, name)
    return names, modules


class Module:
    """A file of specs/: its definitions by name, each with its lines, and what its `use` lines bring in."""

    def __init__(self, path):
        lines = path.read_text(encoding="utf-8").split("\n")
        self.names, self.modules = uses_of(lines)
        self.own, self.made_by, current, kind, depth = defaultdict(list), {}, None, "", 0
        for line in (it.partition("--")[0].rstrip() for it in lines):
            text = line.strip()
            if not text or re.match(r"(ghost |pub )*use |pub mod |infix", text):
                continue
            if re.match(r"module\b", text):
                current = None
                continue
            indent = len(line) - len(line.lstrip())
            head = re.match(r"(?:(?:abbrev|unfoldable|pub|record|data) )+([^\s:({]+)", text)
            plain = re.match(r"([^\s:({=]+) : ", text)
            if head and not (kind == "record" and indent > depth and text.startswith("pub ")):
                current, kind, depth = head[1], "record" if "record " in head[0] else "data" if "data " in head[0] else "", indent
            elif plain and current and kind == "data" and indent > depth:
                self.made_by[plain[1]] = current
            elif plain and (current is None or indent <= depth):
                current, kind, depth = plain[1], "", indent
            if current:
                self.own[current].append(line)


@cache
def module_at(module):
    path = Path("crates", module[0], "specs", module[1].replace(".", "/") + ".antt")
    return Module(path) if path.exists() and ".declared" not in f".{module[1]}" else None


def found_in(module, word):
    """The definition that a word of a module names, if it is one of the repository's."""
    it = module_at(module)
    for name in (word, f"◌{word}◌"):
        if name in it.own:
            return module, name
        if name in it.made_by:
            return module, it.made_by[name]
        if name in it.names:
            return followed(*it.names[name])
    front, _, rest = word.partition(".")
    if rest and front in it.modules:
        return followed(it.modules[front], rest.partition(".")[0])
    return found_in(module, front) if rest else None


def followed(module, name):
    it = module_at(module)
    if it is None:
        return None
    if name in it.own:
        return module, name
    if name in it.made_by:
        return module, it.made_by[name]
    return followed(*it.names[name]) if name in it.names else None


def roots(file, function, left_out):
    """The definitions that the clauses of a function name."""
    text = Path(file).read_text(encoding="utf-8")
    names, modules = uses_of(text.split("\n"))
    clauses = re.search(rf"^pub fn {function}\b.*?^{{", text, re.M | re.S)[0]
    for clause in left_out:
        clauses = re.sub(rf"^    ensures {clause} .*\n", "", clauses, flags=re.M)
    for word in WORD.findall(clauses):
        front, _, rest = word.partition(".")
        if word in names and (it := followed(*names[word])):
            yield it
        elif front in modules and (it := followed(modules[front], rest.partition(".")[0])):
            yield it


def reached(start):
    found, left = set(), list(start)
    while left:
        it = left.pop()
        if it in found:
            continue
        found.add(it)
        for line in module_at(it[0]).own[it[1]]:
            for word in WORD.findall(line):
                if other := found_in(it[0], word.strip(".")):
                    left.append(other)
    return found


def in_order(modules):
    """Modules of one crate, each after those that it uses."""
    above = {}
    for it in modules:
        used = {module for module, _ in module_at(it).names.values()} | set(module_at(it).modules.values())
        above[it] = sorted(used & set(modules))
    return list(TopologicalSorter(dict(sorted(above.items()))).static_order())


def lines(definitions):
    return sum(len(module_at(module).own[it]) for module, it in definitions)


def all_crates():
    return [line.partition(":")[0] for line in Path("crates.txt").read_text(encoding="utf-8").splitlines() if line.startswith("rpg")]


def printed(name, definitions):
    files = {module for module, _ in definitions}
    print(f"{name}: {len(definitions)} definitions in {len(files)} files, {lines(definitions)} lines")
    for crate in all_crates():
        if own := [it for it in files if it[0] == crate]:
            here = [it for it in definitions if it[0][0] == crate]
            print(f"| {crate} | {', '.join(it[1] for it in in_order(own))} | {len(here)} | {lines(here)} |")


def modules_of(crate):
    specs = Path("crates", crate, "specs")
    return [(crate, ".".join(path.relative_to(specs).with_suffix("").parts)) for path in sorted(specs.rglob("*.antt"))]


def bookkeeping():
    needed = set().union(*(reached(roots(*contract)) for contract in CONTRACTS.values()))
    for crate in all_crates():
        modules = [it for it in modules_of(crate) if module_at(it).own]
        left = {it: [name for name in module_at(it).own if (it, name) not in needed] for it in modules}
        apart = [it[1] for it in modules if len(left[it]) == len(module_at(it).own)]
        among = [f"{it[1]} ({', '.join(left[it])})" for it in modules if left[it] and it[1] not in apart]
        if apart or among:
            print(f"| {crate} | {', '.join(apart)} | {', '.join(among)} |")


def main():
    for name in sys.argv[1:] or [*CONTRACTS, "shared"]:
        if name == "bookkeeping":
            bookkeeping()
        elif name == "shared":
            program, meaning = reached(PROGRAM), reached(MEANING)
            printed("compared", program - meaning)
            printed("shared", program & meaning)
        else:
            printed(name, reached(roots(*CONTRACTS[name])))


if __name__ == "__main__":
    main()
