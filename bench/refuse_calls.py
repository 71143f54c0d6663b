#!/usr/bin/env python3
"""Refuses each read, write, open and close of each command in turn, and sees that nothing is lost without an exit status and a message.

usage: bench/refuse_calls.py [COMMAND ..]        RPG2 names the program; it needs strace

strace makes one system call fail (-e inject) with each error that such a call can have. Then
    status 0        only if every output is whole: each file, or standard output, and every diagnostic is written
    another status  only with a line on standard output or a sentence on standard error; each file is as it was, or a first part of what is
                    expected, and as long as a message reports ('after N bytes')
    run --keep, go  each file is as it was, or whole; what this run wrote of one that is as it was is beside it, if it wrote any, and the
                    message says where
    records         each file is as it was, or whole, and nothing is beside it
A new file that can't be moved to its place nor be removed is named, and so is an output that is new though the command fails. Each new file
is forced onto the disk.
An interrupted call that isn't refused again must change nothing. No program of the kit sees a close that fails; here it loses nothing,
since what was written is written. It prints a line for each call where this fails, and a count; its exit status is 1 if there is one.
"""

import os
import re
import shutil
import subprocess
import sys
import tempfile
from dataclasses import dataclass
from pathlib import Path

TOP = Path(__file__).resolve().parent.parent
RPG2 = os.environ.get("RPG2", str(TOP / "crates/rpg2/out/rpg2"))
OLD = b"what stood there\n"
OLD_OBJECT = b"RPGOBJ, what stood there\n"
STOCK = "run o.obj in p --date 010576 --disk d"
ROWS = "--by c.rpg --csv --delimiter ; --decimal , --group . --columns region,,seller,pieces,price"

# A command, and the files that it writes; '-' is standard output.
COMMANDS = {
    "run": (STOCK, ("p", "d")),
    "run long": ("run sales.obj long p --date 010576", ("p",)),
    "run two": ("run a.obj m p --secondary v --date 010576", ("p",)),
    "run stdout": ("run sales.obj long - --date 010576", ("-",)),
    "run source": (STOCK + " --source s.rpg", ("p", "d")),
    "run most": (STOCK + " --most 100000", ("p", "d")),
    "keep": (STOCK + " --keep", ("p", "d")),
    "keep new": ("run o.obj in new --date 010576 --disk fresh --keep", ("new", "fresh")),
    "keep halt": ("run o.obj halting p --date 010576 --disk d --keep", ("p", "d")),
    "keep unmade": ("run o.obj in p --date 010576 --disk none/d --keep", ("p",)),
    "keep go": ("go s.rpg in p --date 010576 --disk d", ("p", "d")),
    "records": ("records e p --by v.rpg --deck d", ("p", "d")),
    "records back": ("records l p --to v.rpg", ("p",)),
    "records rows": (f"records c.csv p {ROWS} --deck d", ("p", "d")),
    "records to rows": ("records c.txt p --by c.rpg --to-csv --file SALES", ("p",)),
    "paper": ("paper pages p", ("p",)),
    "fit": ("fit t.old p --table BRACKET=b.txt --force", ("p",)),
    "fit stdout": ("fit t.old - --table BRACKET=b.txt", ("-",)),
    "compile": ("compile s.rpg c", ("c",)),
    "check": ("check s.rpg", ("-",)),
    "list": ("list s.rpg", ("-",)),
    "cards": ("cards --short s.rpg", ("-",)),
    "show": ("show o.obj --source s.rpg", ("-",)),
    "verify": ("verify o.obj", ("-",)),
    "explain": ("explain", ("-",)),
}
# The commands that are interrupted for ever: each kind of reader and writer of files.
PATIENT = ("run", "keep", "records", "compile")
# What is said of an output that is new, though the command failed.
NEW = ("was replaced by what this run wrote", "was made by this run")
# The commands whose files are as they were, or whole.
WHOLE = ("compile", "fit", "records", "records back", "records rows", "records to rows", "paper")
ERRORS = {
    "read": ("EIO", "EINTR", "EAGAIN"),
    "write": ("EIO", "ENOSPC", "EINTR", "EAGAIN", "EDQUOT"),
    "openat": ("EIO", "EINTR", "ENFILE", "EACCES"),
    "ftruncate": ("EIO", "EINTR", "EPERM"),
    "rename": ("EIO", "ENOSPC"),
    "fchmod": ("EPERM",),
    "fsync": ("EIO", "ENOSPC", "EDQUOT"),
    "close": ("EIO",),
    "statx": ("EIO",),
}


@dataclass(frozen=True)
class Outcome:
    status: int
    line: bytes
    diagnostics: bytes
    # None for a file that isn't there
    outputs: dict
    # the files beside an output, as p.part
    beside: dict

    def is_whole(self, wanted):
        return self.outputs == wanted.outputs


def begin():
    """Makes the files that the commands read."""
    examples = TOP / "examples"
    for place, file in (("stock/stock.rpg", "s.rpg"), ("stock/moves.txt", "in"), ("accounts/masters.txt", "m"), ("accounts/movements.txt", "v")):
        shutil.copy(examples / place, file)
    for place, file in (("stockval/stockval.ebc", "e"), ("stockval/stockval.rpg", "v.rpg"), ("taxes/taxes.old.rpg", "t.old"), ("taxes/brackets.txt", "b.txt")):
        shutil.copy(examples / place, file)
    for place, file in (("csv/sales.csv", "c.csv"), ("csv/regions.rpg", "c.rpg"), ("sales/sales.expected", "pages")):
        shutil.copy(examples / place, file)
    for words in ("records e l --by v.rpg", f"records c.csv c.txt {ROWS}"):
        subprocess.run([RPG2, *words.split()], check=True, stdout=subprocess.DEVNULL)
    # a quantity that is no number halts the job
    Path("halting").write_text(Path("in").read_text(encoding="ascii") + "RE100 X0\n", encoding="ascii")
    Path("long").write_text((examples / "sales/sales.txt").read_text(encoding="ascii") * 40, encoding="ascii")
    for place, file in (("stock/stock", "o"), ("accounts/accounts", "a"), ("sales/sales", "sales")):
        subprocess.run([RPG2, "compile", examples / f"{place}.rpg", f"{file}.obj"], check=True, stdout=subprocess.DEVNULL)


def outcome(command, refused=()):
    """Runs a command under strace, over outputs that hold something else."""
    words, outputs = COMMANDS[command]
    for file in [*Path().glob("*.part"), *Path().glob("*.new"), Path("new"), Path("fresh")]:
        file.unlink(missing_ok=True)
    for file, data in (("p", OLD), ("d", OLD), ("c", OLD_OBJECT)):
        Path(file).write_bytes(data)
    ran = subprocess.run(["strace", "-o", "calls", "-qq", *refused, RPG2, *words.split()], capture_output=True, stdin=subprocess.DEVNULL, timeout=20, check=False)
    found = {it: ran.stdout if it == "-" else bytes_of(Path(it)) for it in outputs}
    beside = {str(it): it.read_bytes() for file in outputs for it in Path().glob(f"{file}.*") if it.suffix in (".part", ".new")}
    return Outcome(ran.returncode, ran.stdout, ran.stderr, found, beside)


def bytes_of(path):
    return path.read_bytes() if path.exists() else None


def calls_made():
    """The system calls of the last run that may be refused, each with its number among its kind, and whether it is on standard error; those of
    the loader are left out."""
    calls = [it for line in Path("calls").read_text(encoding="utf-8", errors="replace").splitlines() if (it := re.match(r"(\w+)\((2,)?", line))]
    names = [it[1] for it in calls]
    start = names.index("rt_sigaction") if "rt_sigaction" in names else 0
    seen = {}
    for at, name in enumerate(names):
        seen[name] = seen.get(name, 0) + 1
        if at >= start and name in ERRORS:
            yield name, seen[name], bool(calls[at][2])


def is_first_part(command, file, found, wanted):
    """Whether an output is as it was, or a first part of what is expected, as long as a message reports."""
    data, whole = found.outputs[file], wanted.outputs[file]
    told = re.search(rb"after (\d+) bytes", found.diagnostics)
    if file == "-":
        # the line of an answer may follow
        return whole.startswith(data) or whole.startswith(data[: data.rstrip(b"\n").rfind(b"\n") + 1])
    if data in (OLD, OLD_OBJECT):
        return True
    role = b"--disk FILE can't be written" if file == "d" else b"PRINT can't be written"
    return whole.startswith(data) and not (told and role in found.diagnostics and int(told[1]) != len(data))


def is_told_new(found, file):
    """Whether a message says that a file is new, though the command failed."""
    if b"standard output can't be written" in found.diagnostics:
        return True
    return any(f"{file}: note: {it} {what}\n".encode() in found.diagnostics for it in ("PRINT", "OUT") for what in NEW)


def what_is_wrong_beside(found, wanted, is_heard):
    """What is wrong with files that are kept until their job has ended well, and with what stands beside them."""
    for file, data in found.outputs.items():
        old = OLD if file in ("p", "d") else None
        whole = wanted.beside.get(f"{file}.part", wanted.outputs[file])
        parts = {name: it for name, it in found.beside.items() if name.startswith(f"{file}.")}
        if data != old and (wanted.status or data != whole):
            return f"{file} is neither as it was nor whole"
        if data != old and not is_told_new(found, file):
            return f"{file} is new, and no message says so"
        if not all(whole.startswith(it) for it in parts.values()):
            return f"what stands beside {file} is no first part"
        if is_heard and not all(f"what this run wrote is in {it}\n".encode() in found.diagnostics for it in parts):
            return f"where the part of {file} is isn't told"
        if found.status == 5 and list(parts.values()) != [whole]:
            return f"the part of {file} isn't whole"
    return None


def what_is_wrong(command, error, found, wanted, is_heard):
    if found.status < 0 or found.status > 5:
        return "it crashed"
    if found.status == 0 and found.diagnostics != wanted.diagnostics:
        return "status 0, and a diagnostic is lost"
    if found.status == 0:
        return None if found.is_whole(wanted) and found.beside == wanted.beside else "status 0, and an output isn't whole"
    if error == "EINTR":
        return None if found == wanted else "it doesn't go on after one interruption"
    if not found.line and not found.diagnostics:
        return "neither a line nor a message"
    if command.startswith("keep"):
        return what_is_wrong_beside(found, wanted, is_heard)
    if command in WHOLE and not all(data in (OLD, OLD_OBJECT, wanted.outputs[file]) for file, data in found.outputs.items()):
        return "an old file is gone"
    if command in WHOLE and found.beside:
        return f"{min(found.beside)} is left"
    if command.startswith("records") and found.outputs["p"] != OLD and not is_told_new(found, "p"):
        return "p is new, and no message says so"
    lost = [it for it in found.outputs if not is_first_part(command, it, found, wanted)]
    return f"{lost[0]} is no first part, or another one than the message says" if lost else None


def is_patient(command, calls):
    """Whether a command gives up if a read or a write is interrupted again and again."""
    first = {name: number for name, number, _ in reversed(calls)}
    ends = []
    for name in ("read", "write"):
        if name in first and (name == "read" or COMMANDS[command][1] != ("-",)):
            ends.append(outcome(command, ["-e", f"inject={name}:error=EINTR:when={first[name]}+"]).status)
    return all(it in (1, 5) for it in ends)


def tried(command):
    """Refuses each call of a command, and gives how many were tried and how many went wrong."""
    wanted = outcome(command)
    count = wrong = 0
    calls = list(calls_made())
    forced = Path("calls").read_text(encoding="utf-8", errors="replace").count("\nfsync(")
    if command in ("keep", "keep new", "keep halt", "keep go", *WHOLE) and forced != len(COMMANDS[command][1]):
        wrong += 1
        print(f"{command}: {forced} files are forced onto the disk", flush=True)
    if command in (*WHOLE, "keep unmade"):
        count += 1
        found = outcome(command, ["-e", "inject=rename:error=EIO", "-e", "inject=unlink:error=EIO"])
        if found.status != 1 or not found.beside or not all(f"{it}: note: it is left there".encode() in found.diagnostics for it in found.beside):
            wrong += 1
            print(f"{command}: a file that can't be removed isn't named: status {found.status} {found.diagnostics!r}", flush=True)
    if command in PATIENT:
        count += 1
        if not is_patient(command, calls):
            wrong += 1
            print(f"{command}: it doesn't give up", flush=True)
    for name, number, is_diagnostic in calls:
        for error in ERRORS[name]:
            count += 1
            found = outcome(command, ["-e", f"inject={name}:error={error}:when={number}"])
            if it := what_is_wrong(command, error, found, wanted, not is_diagnostic):
                wrong += 1
                print(f"{command}: {name} {number}, {error}: {it}; status {found.status} {found.diagnostics[:120]!r}", flush=True)
    return count, wrong


def main(names):
    with tempfile.TemporaryDirectory() as folder:
        os.chdir(folder)
        begin()
        found = [tried(it) for it in names or COMMANDS]
    count, wrong = sum(it[0] for it in found), sum(it[1] for it in found)
    print(f"{count} calls refused, {wrong} of them wrong")
    return 1 if wrong or not count else 0


if __name__ == "__main__":
    sys.exit(main(sys.argv[1:]))
