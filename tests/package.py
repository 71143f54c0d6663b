#!/usr/bin/env python3
"""Makes the packages of the proved rpg2 in out/release, and shows that they are right: the gate's last part.

usage, at the top of the repository: tests/package.py

It prints a line for each failure, and last `N passed, M failed`.
"""

import io
import re
import subprocess
import sys
import tarfile
import tempfile
from pathlib import Path

sys.path.insert(0, str(Path(__file__).resolve().parent.parent / "build"))

import package

OUT = Path("out/release")


def files_of(tarball):
    """The contents of the files in a tarball, by their paths."""
    with tarfile.open(fileobj=io.BytesIO(tarball)) as tar:
        return {it.name: tar.extractfile(it).read() for it in tar if it.isfile()}


def members_of(archive):
    """The members of an archive of `ar`, by their names."""
    found, at = {}, 8
    while at < len(archive):
        name, size = archive[at : at + 16].decode().strip(), int(archive[at + 48 : at + 58])
        found[name] = archive[at + 60 : at + 60 + size]
        at += 60 + size + size % 2
    return found


def has_program(files):
    """Whether the program among the files is the one that was proved."""
    return [data for name, data in files.items() if name.endswith("/bin/rpg2")] == [package.PROGRAM.read_bytes()]


def names_its_logic():
    """Whether `--version` names the logic of the kit that proved the program."""
    told = [subprocess.run(it, stdout=subprocess.PIPE, check=True, text=True).stdout for it in ([package.PROGRAM, "--version"], ["rt", "version"])]
    return len({re.search(r"logic ([0-9a-f]{16})\n", it)[1] for it in told}) == 1


def prints_a_report(files):
    """Whether the unpacked program prints the example's report, with nothing in its environment."""
    with tempfile.TemporaryDirectory() as folder:
        top = Path(folder, next(iter(files)).partition("/")[0])
        for name, data in files.items():
            Path(folder, name).parent.mkdir(parents=True, exist_ok=True)
            Path(folder, name).write_bytes(data)
        (top / "bin/rpg2").chmod(0o755)
        example = top / "share/doc/rpg2/examples/sales"
        words = [top / "bin/rpg2", "go", example / "sales.rpg", example / "sales.txt", "--date", "010576", "-q"]
        return subprocess.run(words, stdout=subprocess.PIPE, check=True, env={}).stdout == (example / "sales.expected").read_bytes()


def shown():
    """What is shown of the packages, and whether it is so."""
    written = package.write(OUT)
    debian, tarball = (it.read_bytes() for it in written)
    members = members_of(debian)
    unpacked = files_of(tarball)
    return {
        "a second run writes the same bytes": [*package.packages().values()] == [debian, tarball],
        "the Debian package has its members": [*members] == ["debian-binary", "control.tar.xz", "data.tar.xz"],
        "the Debian package has the proved program": has_program(files_of(members["data.tar.xz"])),
        "the tarball has the proved program": has_program(unpacked),
        "the program names the logic in which it is proved": names_its_logic(),
        "the unpacked program prints the example's report": prints_a_report(unpacked),
    }


def main():
    outcomes = shown()
    for what, is_so in outcomes.items():
        if not is_so:
            print(f"{OUT}: it isn't so that {what}")
    passed = sum(outcomes.values())
    print(f"{passed} passed, {len(outcomes) - passed} failed")
    return 1 if passed < len(outcomes) else 0


if __name__ == "__main__":
    sys.exit(main())
