#!/usr/bin/env python3
"""Measures what running takes by rpg2 and by other programs, in one run.

usage: bench/running.py [ROUNDS] [JOB..]        10 rounds and all jobs where they aren't given; RPG2 names the program

Seven jobs: the total of examples/total, a sales report with two control levels and edited totals (bench/sales), and the reports accounts,
stock, prices, taxes and invoices of examples/ over their records, repeated. The total and the sales report are also made by awk and by Rust
and C that were written for them (bench/total.*, bench/sales/), and the sales report by COBOL, each where its compiler is there.

Of each program: processor seconds over the records of its job, the least of some rounds in which the programs take turns; the most memory
that it held; and, where valgrind is there, the instructions a record: the difference of two inputs, by callgrind. INTERPRETER has what a
plain Rust interpreter of the same object programs takes for the same inputs, and the last column is rpg2's part of that. The prints of a job
are to be the same, byte for byte; COBOL's without headings, blanks and the way of the form. Where they differ, or a program fails, the
status is 1.
"""

import os
import re
import shutil
import subprocess
import sys
import tempfile
import time
from collections import namedtuple

TOP = os.path.dirname(os.path.dirname(os.path.abspath(__file__)))
RPG2 = os.environ.get("RPG2", os.path.join(TOP, "crates/rpg2/out/rpg2"))

# Instructions a record of a Rust interpreter of object programs that is written for plainness, without a proof (2026-11-30).
INTERPRETER = {"total": 1128, "sales": 4083, "accounts": 3032, "stock": 2295, "prices": 3974, "taxes": 5479, "invoices": 3428}

# The lines of its inputs by their names, for few, more and all records; its programs by name; what of COBOL's print is compared.
Job = namedtuple("Job", "name few more all programs compared")
RUST = ("rustc", "--edition", "2021", "-O", "-C", "lto=fat", "-C", "codegen-units=1", "-C", "panic=abort")
C = ("cc", "-O3", "-w")
COBOL = ("cobc", "-x", "-free", "-O2")


def path_of(*names):
    return os.path.join(TOP, *names)


def run_by_rpg2(program, *words):
    return [RPG2, "run", program, "INPUT", "OUTPUT", "--date", "010576", *words]


def compiled_by_rpg2(folder, source):
    program = os.path.join(folder, os.path.basename(source).replace(".rpg", ".obj"))
    subprocess.run([RPG2, "compile", path_of(source), program], stdout=subprocess.DEVNULL, check=True)
    return program


def built(folder, compiler, source):
    """Compiles a program, if its compiler is there, and returns its path."""
    if not shutil.which(compiler[0]):
        return None
    program = os.path.join(folder, os.path.basename(source).replace(".", "-"))
    subprocess.run([*compiler, "-o", program, path_of(source)], check=True)
    return program


def others(folder, source, words):
    """The programs of a report in Rust and in C, as words."""
    found = {"Rust": built(folder, RUST, f"{source}.rs"), "C": built(folder, C, f"{source}.c")}
    return {name: [program, *words] for name, program in found.items() if program}


# ---- the jobs


def amounts(count):
    return {"INPUT": [f"{i * 7 % 1000:03}" for i in range(1, count + 1)]}


def total(folder):
    programs = {"rpg2": run_by_rpg2(path_of("examples/total/total.obj"))}
    programs |= others(folder, "bench/total", ["INPUT", "OUTPUT"])
    programs["awk"] = ["awk", "-f", path_of("bench/total.awk"), "INPUT"]
    return Job("total", amounts(2_000), amounts(4_000), amounts(1_000_000), programs, None)


def sales_records(count):
    told = subprocess.run([path_of("bench/sales/records.py"), str(count)], stdout=subprocess.PIPE, check=True, text=True)
    return told.stdout.splitlines()


def amounts_of(text):
    """The lines of a report without headings, blanks and movements."""
    lines = re.sub(r"[ \f\r]", "", text).split("\n")
    return [it for it in lines if it and not it.startswith("SALESBYREGION")]


def sales(folder):
    programs = {"rpg2": run_by_rpg2(compiled_by_rpg2(folder, "bench/sales/sales.rpg"))}
    programs |= others(folder, "bench/sales/sales", ["INPUT", "OUTPUT", "010576"])
    if by_cobol := built(folder, COBOL, "bench/sales/sales.cob"):
        programs["COBOL"] = [by_cobol, "INPUT", "OUTPUT"]
    programs["awk"] = ["awk", "-v", "date=010576", "-f", path_of("bench/sales/sales.awk"), "INPUT"]
    records = sales_records(200_000)
    return Job("sales", {"INPUT": records[:2_000]}, {"INPUT": records[:4_000]}, {"INPUT": records}, programs, amounts_of)


def lines_of(path):
    with open(path_of("examples", path), encoding="ascii") as source:
        return source.read().splitlines()


def example(name, records, words=()):
    """A job of examples/ whose records are repeated to some 200, 400 and 20,000."""

    def job(folder):
        lines = lines_of(f"{name}/{records}")
        times = max(1, 200 // len(lines))
        programs = {"rpg2": run_by_rpg2(compiled_by_rpg2(folder, f"examples/{name}/{name}.rpg"), *words)}
        few, more, whole = ({"INPUT": lines * times * it} for it in (1, 2, 100))
        return Job(name, few, more, whole, programs, None)

    return job


def matched(count):
    """Accounts with movements: none, one or two each."""
    names = [line[4:] for line in lines_of("accounts/masters.txt")]
    moves = [line[4:] for line in lines_of("accounts/movements.txt")]
    masters = [f"{k:04}{names[k % len(names)]}" for k in range(1, count + 1)]
    return {"INPUT": masters, "SECONDARY": [f"{k:04}{moves[(k + j) % len(moves)]}" for k in range(1, count + 1) for j in range(k % 3)]}


def accounts(folder):
    program = run_by_rpg2(compiled_by_rpg2(folder, "examples/accounts/accounts.rpg"), "--secondary", "SECONDARY")
    return Job("accounts", matched(200), matched(400), matched(9_900), {"rpg2": program}, None)


JOBS = {
    "total": total,
    "sales": sales,
    "accounts": accounts,
    "stock": example("stock", "moves.txt", ("--disk", "DISK")),
    "prices": example("prices", "orders.txt"),
    "taxes": example("taxes", "taxes.txt"),
    "invoices": example("invoices", "invoices.txt"),
}


# ---- one program


def words_for(program, folder, inputs, printed):
    """The words of a program, with the paths of its files. The inputs are written to the folder."""
    paths = {"OUTPUT": printed, "DISK": f"{printed}.disk"}
    for name, lines in inputs.items():
        paths[name] = os.path.join(folder, f"{name}-{len(lines)}")
        if not os.path.exists(paths[name]):
            with open(paths[name], "w", encoding="ascii", newline="") as out:
                out.writelines(f"{line}\n" for line in lines)
    return [paths.get(it, it) for it in program]


def begin(words, printed):
    """Starts a program. One that names no print writes it to its standard output."""
    with open(os.devnull if printed in words else printed, "w", encoding="ascii") as out:
        return subprocess.Popen(words, stdout=out)


def processor_seconds(words, printed):
    """What one run took; it is to end well."""
    child = begin(words, printed)
    _, status, usage = os.wait4(child.pid, 0)
    child.returncode = os.waitstatus_to_exitcode(status)
    if child.returncode:
        sys.exit(f"{words[0]}: status {child.returncode}")
    return usage.ru_utime + usage.ru_stime


def most_memory(words, printed):
    """The most memory that a run held, in KiB, as the kernel reports it while it runs."""
    child = begin(words, printed)
    most = 0
    while child.poll() is None:
        with open(f"/proc/{child.pid}/status", encoding="ascii") as told:
            most = max([most, *map(int, re.findall(r"VmHWM:\s*(\d+)", told.read()))])
        time.sleep(0.0005)
    return most


def counted(words):
    told = subprocess.run(["valgrind", "--tool=callgrind", "--callgrind-out-file=/dev/null", *words], capture_output=True, text=True, check=True)
    return int(re.search(r"Collected : (\d+)", told.stderr)[1])


def records_in(inputs):
    return sum(map(len, inputs.values()))


def new_print(folder):
    """The path of a print that isn't there yet."""
    return os.path.join(tempfile.mkdtemp(dir=folder), "print")


def instructions_a_record(job, program, folder):
    if not shutil.which("valgrind"):
        return None
    # Each of the two prints to a new file: what replacing one takes isn't a record's.
    few, more = (counted(words_for(program, folder, it, new_print(folder))) for it in (job.few, job.more))
    return (more - few) / (records_in(job.more) - records_in(job.few))


# ---- one job by all its programs


def text_of(path):
    with open(path, encoding="ascii", newline="") as printed:
        return printed.read()


def is_same(job, name, own, other):
    return job.compared(own) == job.compared(other) if name == "COBOL" else own == other


def told_of(job, name, count):
    """The instructions a record, and rpg2's part of the interpreter's."""
    if count is None:
        return f"{'-':>12}"
    return f"{count:12.0f}" + (f" {count / INTERPRETER[job.name]:8.2f}" if name == "rpg2" else "")


def measure(job, folder, rounds):
    """Prints a line for each program of a job. Answers whether their prints are the same."""
    prints = {name: os.path.join(folder, f"{name}.print") for name in job.programs}
    words = {name: words_for(program, folder, job.all, prints[name]) for name, program in job.programs.items()}
    runs = {name: [] for name in job.programs}
    for _ in range(rounds):
        for name in job.programs:
            runs[name].append(processor_seconds(words[name], prints[name]))
    for name, program in job.programs.items():
        seconds, memory = min(runs[name]), most_memory(words[name], prints[name])
        if not is_same(job, name, text_of(prints[name]), text_of(prints["rpg2"])):
            print(f"{job.name:8} {name:8} its print differs")
            return False
        told = told_of(job, name, instructions_a_record(job, program, folder))
        print(f"{job.name:8} {name:8} {seconds:10.3f} {records_in(job.all) / max(seconds, 1e-9):14.0f} {memory:10} {told}", flush=True)
    return True


def main(words):
    rounds = int(words.pop(0)) if words and words[0].isdigit() else 10
    print(f"{'job':8} {'by':8} {'seconds':>10} {'records/s':>14} {'KiB':>10} {'instr./rec.':>12} {'of plain':>8}")
    all_same = True
    for name in words or JOBS:
        with tempfile.TemporaryDirectory() as folder:
            all_same &= measure(JOBS[name](folder), folder, rounds)
    return 0 if all_same else 1


if __name__ == "__main__":
    sys.exit(main(sys.argv[1:]))
