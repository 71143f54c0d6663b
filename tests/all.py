#!/usr/bin/env python3
"""The whole gate: every proof, test and program by `rt ci`, then the wrong bodies that tests/gate.edits lists (tests/edits.py), then the
cases and sessions over both builds of rpg2 (tests/run.py), the packages of the proved program (tests/package.py), and last the pages
(tests/pages.py). A part that fails ends it. The last line is 'N passed, M failed', over all parts that ran.

usage, at the top of the repository: tests/all.py
"""

import re
import subprocess
import sys

PARTS = (["rt", "ci"], ["tests/edits.py", "--listed", "tests/gate.edits"], ["tests/run.py"], ["tests/package.py"], ["tests/pages.py"])
COUNT = re.compile(r"^(\d+) passed, (\d+) failed\b")


def counted(command):
    """Runs a part, passes its lines on but for the count, and gives that and the exit status."""
    passed = failed = 0
    with subprocess.Popen(command, stdout=subprocess.PIPE, stderr=subprocess.STDOUT, text=True, errors="replace") as part:
        for line in part.stdout:
            if it := COUNT.match(line):
                passed, failed = int(it[1]), int(it[2])
            else:
                print(line, end="", flush=True)
    print(f"{' '.join(command)}: {passed} of {passed + failed} passed", flush=True)
    return passed, failed, part.returncode


def main():
    whole, lost = 0, 0
    for command in PARTS:
        passed, failed, status = counted(command)
        # a part that breaks off, or counts nothing, has failed
        failed = failed or int(status != 0 or not passed)
        whole, lost = whole + passed, lost + failed
        if failed:
            break
    print(f"{whole} passed, {lost} failed")
    return 1 if lost else 0


if __name__ == "__main__":
    sys.exit(main())
