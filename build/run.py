#!/usr/bin/env python3
"""Shows an example report: build/run.py NAME, at the top of the repository. The Makefile calls it.

The proved program runs it if it is there and up to date. Otherwise it is out/rpg2-unproved, which is compiled if a file that it is made of
is newer.
"""

import subprocess
import sys
from pathlib import Path

sys.dont_write_bytecode = True

import rpg2
import unproved

UNPROVED = Path("out/rpg2-unproved")
PARTS = Path("out/unproved-parts")


def unproved_program():
    """Compiles rpg2 without its proofs, unless that is done."""
    if not rpg2.is_up_to_date(UNPROVED):
        if status := subprocess.run(["build/needs.sh", "rt"], check=False).returncode:
            sys.exit(status)
        print("rpg2 is compiled without its proofs, which takes one to two minutes:", flush=True)
        unproved.build(UNPROVED.absolute(), is_marked=True, kept=PARTS.absolute())
        print()
    return UNPROVED


def main(name):
    is_proved = rpg2.is_up_to_date(rpg2.PROGRAM)
    program = rpg2.PROGRAM if is_proved else unproved_program()
    if status := subprocess.run(["build/example.sh", program, name], check=False).returncode:
        return status
    print()
    if is_proved:
        print(f"The program is {program}. It is proved.")
    else:
        print(f"The program is {program}. It is NOT PROVED: `make prove` proves it, in some 40 minutes on 4 processors.")
    print("Next: docs/START.md, your first report in twenty minutes.")
    return 0


if __name__ == "__main__":
    sys.exit(main(*sys.argv[1:]))
