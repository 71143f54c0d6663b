#!/usr/bin/env python3
"""Packs the proved rpg2 with its pages as a Debian package and as a tarball, with their check sums in SHA256SUMS.

usage, at the top of the repository: build/package.py OUT

It packs crates/rpg2/out/rpg2 as it is, and only if `--version` names the logic in which it is proved. The same program and pages of the same
commit give the same bytes: all dates are the last commit's (or SOURCE_DATE_EPOCH), and all files belong to root. Nothing but Python is
needed to write the two, and nothing but the C library to run the program.
"""

import hashlib
import io
import lzma
import os
import re
import shutil
import subprocess
import sys
import tarfile
import tempfile
from pathlib import Path

PROGRAM = Path("crates/rpg2/out/rpg2")
VERSION = re.compile(r"rpg2 (\d[\d.]*)( \(unreleased\))?, (.*, proved in Rattle's logic [0-9a-f]{16})\n")

CONTROL = """Package: rpg2
Version: {version}
Architecture: amd64
Maintainer: Melguda <melguda@localhost>
Depends: libc6 (>= {libc})
Section: devel
Priority: optional
Installed-Size: {size}
Description: RPG II compiler, object-program verifier and machine
 {about}
"""


def version_of(program):
    """The version as Debian writes it, and what else `--version` prints."""
    printed = subprocess.run([program, "--version"], stdout=subprocess.PIPE, check=True, text=True).stdout
    found = VERSION.fullmatch(printed) or sys.exit(f"{program} isn't packed, because it doesn't report that it is proved: {printed.strip()}")
    return found[1] + ("~unreleased" if found[2] else ""), found[3]


def date():
    """SOURCE_DATE_EPOCH, or when the last commit was made, or in a folder without git when the program was made: in seconds."""
    if given := os.environ.get("SOURCE_DATE_EPOCH"):
        return int(given)
    if not shutil.which("git") or not Path(".git").exists():
        return int(PROGRAM.stat().st_mtime)
    return int(subprocess.run(["git", "log", "-1", "--format=%ct"], stdout=subprocess.PIPE, check=True, text=True).stdout)


def libc_of(program):
    """The oldest version of the C library that has all symbols of the program."""
    needed = re.findall(rb"GLIBC_(\d+)\.(\d+)\0", program.read_bytes())
    return ".".join(map(str, max((int(major), int(minor)) for major, minor in needed)))


def placed(prefix, tree):
    """Puts what `make install` installs below a folder."""
    words = ["make", "-s", "files", f"PREFIX={prefix}", f"DESTDIR={tree}"]
    subprocess.run(words, stdout=subprocess.DEVNULL, check=True, env={**os.environ, "MAKEFLAGS": ""})
    return tree


def of_root(entry, time):
    entry.uid = entry.gid = 0
    entry.uname = entry.gname = "root"
    entry.mtime = time
    entry.mode = 0o755 if entry.isdir() or entry.mode & 0o100 else 0o644
    return entry


def packed(tree, name, time):
    """A folder as a compressed tarball, in which it has this name."""
    tarball = io.BytesIO()
    with tarfile.open(fileobj=tarball, mode="w", format=tarfile.GNU_FORMAT) as tar:
        tar.add(tree, name, recursive=False, filter=lambda it: of_root(it, time))
        for path in sorted(tree.rglob("*")):
            tar.add(path, f"{name}/{path.relative_to(tree)}", recursive=False, filter=lambda it: of_root(it, time))
    return lzma.compress(tarball.getvalue())


def archive(members, time):
    """Members with their names as an archive of `ar`."""
    made = b"!<arch>\n"
    for name, data in members.items():
        made += f"{name:16}{time:<12}{0:<6}{0:<6}{'100644':8}{len(data):<10}`\n".encode() + data + b"\n" * (len(data) % 2)
    return made


def debian_package(folder, version, about, time):
    """The Debian package: its form, what describes it, and its files."""
    tree, control = placed("/usr", folder / "debian"), folder / "control"
    control.mkdir()
    size = sum(it.stat().st_size for it in tree.rglob("*") if it.is_file()) // 1024
    (control / "control").write_text(CONTROL.format(version=version, libc=libc_of(PROGRAM), size=size, about=about), encoding="utf-8")
    return archive({"debian-binary": b"2.0\n", "control.tar.xz": packed(control, ".", time), "data.tar.xz": packed(tree, ".", time)}, time)


def packages():
    """The bytes of both packages, by their names."""
    version, about = version_of(PROGRAM)
    time, name = date(), f"rpg2-{version}-x86_64-linux"
    with tempfile.TemporaryDirectory(prefix="melguda-package-") as room:
        folder = Path(room)
        return {
            f"rpg2_{version}_amd64.deb": debian_package(folder, version, about, time),
            f"{name}.tar.xz": packed(placed("", folder / "tarball"), name, time),
        }


def write(out):
    """Writes both packages and their check sums, and returns their paths."""
    out.mkdir(parents=True, exist_ok=True)
    made = packages()
    for name, data in made.items():
        (out / name).write_bytes(data)
    sums = "".join(f"{hashlib.sha256(data).hexdigest()}  {name}\n" for name, data in made.items())
    (out / "SHA256SUMS").write_text(sums, encoding="ascii")
    return [out / name for name in made]


def main(words):
    if len(words) != 1:
        sys.exit(__doc__)
    for path in write(Path(words[0])):
        print(path)


if __name__ == "__main__":
    main(sys.argv[1:])
