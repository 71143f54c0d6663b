"""Shows that editors and shells read what rpg2 prints and what install/ has for them: vim's list of faults, the matchers of Visual Studio
Code and GitHub over the diagnostics of all sessions, and the completions in an interactive shell. What isn't installed is left out."""

import json
import os
import pty
import re
import select
import shutil
import subprocess
import tempfile
import time
from collections.abc import Callable, Iterator
from functools import partial
from pathlib import Path

from outcome import Outcome
from program import Program

HERE = Path(__file__).resolve().parent
INSTALL = HERE.parent / "install"
SECONDS = 20

Job = Callable[[], list[Outcome]]

# A diagnostic that names a line: the file, the line, the column, the level and the message.
DIAGNOSTIC = re.compile(r"([^\s:]+):(\d+):(\d+): (error|warning|note): (.+)")

# The matchers of gcc that Visual Studio Code has (`$gcc`, older and newer).
GCC = [r"^(.*):(\d+):(\d+):\s+(?:fatal\s+)?(warning|error):\s+(.*)$", r"^(.*?):(\d+):(\d*):?\s+(?:fatal\s+)?(warning|error):\s+(.*)$"]

# Deck of vim's case, and the entries of its list: type, line, column and the start of the text.
DECK = [
    "     FSTOCK   IPE F      30            DISK",
    "     FPRINT   O   F     132            PRINTER",
    "     ISTOCK   AA  01",
    "     I                                        1  20 ITEM",
    "     OPRINT   D        02",
    "     O                         ITEM      20",
]
LISTS = {
    "warned.rpg": (DECK, [("w", 5, 23, "indicator 02 is tested")]),
    "unread.rpg": ([*DECK[:5], DECK[5].replace("20", "2 ")], [("e", 6, 40, "the end position"), ("n", 6, 40, "move \"2\"")]),
    "unfiled.rpg": (DECK[1:], [("e", 1, 1, "no card"), ("e", 2, 7, "")]),
}

# What is typed, and all words that may stand in the last one's place.
TYPED = {
    "rpg2 sh": ["show"],
    "rpg2 explain ha": ["halt"],
    "rpg2 explain halt ": list("12345678"),
    "rpg2 explain --": ["--help", "--list"],
    "rpg2 explain w1": ["W1", "W10", "W11", "W12", "W13", "W14", "W15"],
    "rpg2 check a": ["a b.rpg", "a c.rpg"],
    "rpg2 check --allow W13 --allow W12 --for": ["--format"],
    "rpg2 check --allow W1": ["W1", "W10", "W11", "W12", "W13", "W14", "W15"],
    "rpg2 check --deny W": sorted(f"W{it}" for it in range(1, 16)),
    "rpg2 check --deny z": ["z.txt"],
    "rpg2 run --format=j": ["--format=json"],
    "rpg2 run --date to": ["today", "today-dmy", "today-ymd"],
}


def told(place: str, wanted: object, came: object) -> Outcome:
    return Outcome(place, "ok" if wanted == came else "DIFFERS", None if wanted == came else f"\n--- wanted\n{wanted}\n--- came\n{came}")


def left_out(tool: str) -> list[Outcome]:
    return [Outcome(tool, f"left out: there is no {tool}")]


# ---- matchers


def diagnostics() -> Iterator[tuple[str, re.Match]]:
    """The diagnostics of all sessions, as text."""
    for path in sorted((HERE / "sessions").glob("*.wanted")):
        for line in path.read_text(encoding="latin-1").splitlines():
            if found := DIAGNOSTIC.fullmatch(line):
                yield path.name, found


def of_github() -> list[str]:
    """The pattern of the matcher for GitHub."""
    matchers = json.loads((INSTALL / "editor" / "gcc-matcher.json").read_text(encoding="utf-8"))["problemMatcher"]
    return [part["regexp"] for it in matchers for part in it["pattern"]]


def matched(name: str, patterns: list[str]) -> list[Outcome]:
    """Whether each pattern reads each error and warning, with its parts, and no line besides."""
    rows = list(diagnostics())
    wrong, others = [], []
    for pattern in patterns:
        rule = re.compile(pattern, re.ASCII)
        for path, it in rows:
            found = rule.match(it[0])
            if (found and found.groups()) != (None if it[4] == "note" else it.groups()):
                wrong.append((path, it[0]))
        others += [it for it in ("card 9: S5", "no fault", "warned.rpg: note: 3 warnings", "error: unexpected argument '--x' found") if rule.match(it)]
    return [told(f"{name}, {len(rows)} lines", ([], []), (wrong, others))] if rows else [told(name, "diagnostics", "none")]


# ---- vim


def listed(program: Program, name: str) -> list[Outcome]:
    """The list that `:make` of vim has for a deck."""
    lines, wanted = LISTS[name]
    with tempfile.TemporaryDirectory() as folder:
        Path(folder, name).write_text("".join(f"{it}\n" for it in lines))
        os.symlink(program.path, Path(folder, "rpg2"))
        commands = [
            f"set rtp^={INSTALL}/editor/vim",
            "filetype plugin on",
            f"edit {name}",
            "silent! make",
            "call writefile(map(filter(getqflist(), 'v:val.valid'), 'json_encode([v:val.type, v:val.lnum, v:val.col, bufname(v:val.bufnr), v:val.text])'), 'list')",
            "qa!",
        ]
        words = [word for it in commands for word in ("-c", it)]
        environ = {**os.environ, "PATH": f"{folder}:{os.environ['PATH']}", "HOME": folder}
        subprocess.run(["vim", "-Nu", "NONE", "-es", *words], cwd=folder, env=environ, stdin=subprocess.DEVNULL, capture_output=True, timeout=SECONDS)
        entries = [json.loads(it) for it in Path(folder, "list").read_text().splitlines()]
    starts = [(kind, line, column, text[: len(begin)]) for (kind, line, column, _, text), (*_, begin) in zip(entries, wanted)]
    return [told(f"vim, {name}", (len(wanted), wanted, {name}), (len(entries), starts, {it[3] for it in entries}))]


def painted() -> list[Outcome]:
    """The groups that vim's syntax gives to columns of a card."""
    card = "     C   31      AMOUNT    MULT .05       TAX     62H         HERE"
    columns = {6: "rpg2Form", 10: "rpg2Indicator", 28: "rpg2Operation", 62: "rpg2Comment"}
    with tempfile.TemporaryDirectory() as folder:
        Path(folder, "a.rpg").write_text(f"      * A COMMENT\n{card}\n     O                                   12 'A TEXT'\n")
        asked = [(2, column) for column in columns] + [(1, 10), (3, 46)]
        commands = [
            f"set rtp^={INSTALL}/editor/vim",
            "syntax on",
            "filetype plugin on",
            "edit a.rpg",
            f"call writefile(map({[list(it) for it in asked]}, 'synIDattr(synID(v:val[0], v:val[1], 1), \"name\")'), 'groups')",
            "qa!",
        ]
        words = [word for it in commands for word in ("-c", it)]
        environ = {**os.environ, "HOME": folder}
        subprocess.run(["vim", "-Nu", "NONE", "-es", *words], cwd=folder, env=environ, stdin=subprocess.DEVNULL, capture_output=True, timeout=SECONDS)
        came = Path(folder, "groups").read_text().splitlines()
    return [told("vim, syntax", [*columns.values(), "rpg2Comment", "rpg2Text"], came)]


# ---- bash


class Shell:
    """An interactive bash on a terminal, with rpg2's completion."""

    def __init__(self, folder: str):
        self.process, self.terminal = pty.fork()
        if self.process == 0:
            os.chdir(folder)
            environ = {"PATH": os.environ["PATH"], "HOME": folder, "TERM": "dumb", "PS1": "> "}
            os.execvpe("bash", ["bash", "--norc", "--noprofile", "-i"], environ)
        self.say(f"bind 'set bell-style none'; bind 'set enable-bracketed-paste off'; stty cols 4000; . {INSTALL}/completions/rpg2.bash; echo rea''dy\n", "ready")

    def say(self, keys: str, until: str) -> str:
        """Types keys, and returns what the terminal shows up to a word."""
        os.write(self.terminal, keys.encode())
        shown, end = "", time.monotonic() + SECONDS
        while until not in shown:
            if not select.select([self.terminal], [], [], max(0, end - time.monotonic()))[0]:
                raise TimeoutError(f"{keys!r}: {shown!r}")
            shown += os.read(self.terminal, 65536).decode()
        return shown

    def words(self, typed: str) -> list[str]:
        """All words that may complete the last one that is typed: Alt-* writes them all, and printf shows them."""
        stays = typed.rpartition(" ")[0].split(" ")
        shown = self.say(f"{typed}\x1b*\x01printf '%s\\036' \x05; echo en''d\n", "end\r")
        printed = shown.rpartition("end")[0].rpartition("\n")[2]
        return printed.split("\x1e")[len(stays) : -1]

    def close(self) -> None:
        os.close(self.terminal)
        os.waitpid(self.process, 0)


def completed_by_bash() -> list[Outcome]:
    with tempfile.TemporaryDirectory() as folder:
        for name in ("a b.rpg", "a c.rpg", "z.txt"):
            Path(folder, name).touch()
        shell = Shell(folder)
        try:
            return [told(f"bash, {typed}", wanted, shell.words(typed)) for typed, wanted in TYPED.items()]
        finally:
            shell.close()


def read_by_shell(shell: str, name: str) -> list[Outcome]:
    """Whether a shell that is installed reads its completion."""
    came = subprocess.run([shell, "-n", str(INSTALL / "completions" / name)], capture_output=True, text=True, timeout=SECONDS)
    return [told(f"{shell}, {name}", (0, ""), (came.returncode, came.stderr))]


def jobs_of(program: Program) -> Iterator[Job]:
    yield partial(matched, "gcc-matcher.json", of_github())
    yield partial(matched, "$gcc", GCC)
    tools = [("vim", partial(listed, program, it)) for it in LISTS] + [("vim", painted), ("bash", completed_by_bash)]
    tools += [("zsh", partial(read_by_shell, "zsh", "_rpg2")), ("fish", partial(read_by_shell, "fish", "rpg2.fish"))]
    for tool, job in tools:
        yield job if shutil.which(tool) else partial(left_out, tool)
