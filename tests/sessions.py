"""Sessions: commands that are run one after another in one folder, and what each prints."""

import os
import pty
import re
import select
import shutil
import subprocess
import tempfile
import time
from collections.abc import Callable
from dataclasses import dataclass, field
from datetime import datetime, timedelta
from pathlib import Path
from typing import IO

import messages
from case_file import hex_of, lines_in, text_of
from outcome import Outcome
from program import SECONDS, Limits, Program

# How many seconds a record waits for what comes of it.
PATIENCE = 20

# The session that only root can hold, and the user whom it runs rpg2 as.
OF_ROOT = "others.session"
OTHER = 65534

# What a character means after a backslash in a word; any other means itself.
IN_WORDS = {b"n": b"\n", b"f": b"\f", b"r": b"\r", b"u": b"\x1f", b"o": b"\xff"}


@dataclass
class Command:
    """A command, and the lines after it, which are a file or prose."""

    number: int
    words: str
    lines: list[str] = field(default_factory=list)


def commands_in(path: Path) -> list[Command]:
    commands = []
    for number, line in enumerate(lines_in(path), start=1):
        if line.startswith("$ "):
            commands.append(Command(number, line[2:]))
        elif commands:
            commands[-1].lines.append(line)
    return commands


def wanted_of(commands: list[Command], text: bytes) -> list[bytes]:
    """What is expected of each command: the text has each command in a line of its own, and after it what it prints."""
    places, at = [], 0
    for command in commands:
        head = f"$ {command.words}\n".encode("latin-1")
        at = text.index(head, at)
        places.append((at, at + len(head)))
        at += len(head)
    ends = [start for start, _ in places[1:]] + [len(text)]
    return [text[start:end] for (_, start), end in zip(places, ends)]


def unescaped(word: str) -> bytes:
    if word == "''":
        return b""
    found = re.sub(rb"\\(.)", lambda it: IN_WORDS.get(it[1], it[1]), word.encode("latin-1"), flags=re.DOTALL)
    return bytes(found)


class Session:
    """A folder in which commands are obeyed. All that they are given on standard input is one file, which each reads on from the last."""

    def __init__(self, program: Program, folder: Path, given: IO[bytes]):
        self.program, self.folder, self.given = program, folder, given

    def obey(self, command: Command) -> bytes:
        """Does a command, and returns what is seen of it."""
        verb, _, rest = command.words.partition(" ")
        does = getattr(self, f"do_{verb}", None)
        if does is None:
            return b"no such command\n"
        if verb in ("text", "times", "hex", "prompt", "grows"):
            return does(rest, command.lines)
        return does(*rest.split())

    def seen(self, command: Command) -> bytes:
        """What is seen of a command; or why it can't be done, such as a missing file."""
        try:
            return self.obey(command)
        except (OSError, subprocess.SubprocessError, IndexError, TypeError, ValueError) as why:
            return f"it can't be done: {why}\n".encode()

    def path(self, name: str) -> Path:
        return self.folder / name

    def said(self, words: tuple[str, ...], limits: Limits = Limits(), shows_all: bool = True) -> bytes:
        """What rpg2 prints on both streams, and its status; 0 only if all is shown."""
        answer = self.program.run([unescaped(it) for it in words[1:]], self.folder, self.given, limits=limits)
        status = f"status {answer.status}\n" if answer.status or shows_all else ""
        return answer.text + status.encode()

    def do_rpg2(self, *words: str) -> bytes:
        return self.said(("rpg2", *words), shows_all=False)

    def do_told(self, *words: str) -> bytes:
        return self.said(words)

    def do_given(self, name: str, *words: str) -> bytes:
        """Runs rpg2 with a file as standard input, and shows the status."""
        with open(self.path(name), "rb") as given:
            answer = self.program.run([unescaped(it) for it in words[1:]], self.folder, given)
        return answer.text + f"status {answer.status}\n".encode()

    def do_today(self, name: str, order: str) -> bytes:
        """Whether a file has today's date in an order, as `%m%d%y`, and nothing else; or what else it has. At midnight yesterday's is as good."""
        text = self.path(name).read_text(encoding="latin-1").strip()
        now = datetime.now()
        days = [it.strftime(order) for it in (now, now - timedelta(minutes=5))]
        return b"today\n" if text in days else f"{text}\n".encode("latin-1")

    def do_full(self, room: str, *words: str) -> bytes:
        return self.said(words, Limits(file=int(room)))

    def do_scarce(self, room: str, *words: str) -> bytes:
        return self.said(words, Limits(memory=int(room)))

    def do_without(self, streams: str, *words: str) -> bytes:
        """Runs rpg2 with standard streams closed, by their numbers."""
        return self.said(words, Limits(closed=tuple(int(it) for it in streams)))

    def do_unheard(self, *words: str) -> bytes:
        """Runs rpg2 with a standard output that takes all but the last line."""
        with tempfile.TemporaryFile() as whole, tempfile.TemporaryFile() as part:
            self.program.run(list(words[1:]), self.folder, self.given, out=whole)
            whole.seek(0)
            room = sum(map(len, whole.readlines()[:-1]))
            answer = self.program.run(list(words[1:]), self.folder, self.given, out=part, limits=Limits(file=room))
            part.seek(0)
            return part.read() + answer.text + f"status {answer.status}\n".encode()

    def do_to(self, name: str, *words: str) -> bytes:
        """Runs rpg2 with standard output appended to a file, or on a device: what it prints on standard error, and the status."""
        with open(self.path(name), "ab") as out:
            answer = self.program.run(list(words[1:]), self.folder, self.given, out=out)
        return answer.text + f"status {answer.status}\n".encode()

    def do_mute(self, *words: str) -> bytes:
        """Runs rpg2 with a standard error that takes nothing: what it prints on standard output, and the status."""
        with open("/dev/full", "wb") as nothing:
            ended = subprocess.run(
                words, executable=self.program.path, cwd=self.folder, stdin=self.given, stdout=subprocess.PIPE, stderr=nothing, timeout=SECONDS, check=False
            )
        return ended.stdout + f"status {ended.returncode}\n".encode()

    def do_terminal(self, setting: str, *words: str) -> bytes:
        """Runs rpg2 where standard error is a terminal, and a variable of colours has a value, as in `NO_COLOR=1`; `-` for none. What comes
        there is shown, an escape as `\\e`."""
        ours, its = pty.openpty()
        environment = {name: value for name, value in os.environ.items() if name not in ("NO_COLOR", "CLICOLOR", "CLICOLOR_FORCE")}
        if setting != "-":
            name, _, value = setting.partition("=")
            environment[name] = value
        with open(os.devnull, "wb") as nothing, os.fdopen(ours, "rb", buffering=0) as screen:
            command = subprocess.Popen(
                words, executable=self.program.path, cwd=self.folder, stdin=self.given, stdout=nothing, stderr=its, env=environment
            )
            os.close(its)
            status = command.wait(SECONDS)
            text = drained(screen)
        return text.replace(b"\r\n", b"\n").replace(b"\x1b", b"\\e") + f"status {status}\n".encode()

    def do_closed(self, *words: str) -> bytes:
        """Runs rpg2 where nobody reads standard output any more."""
        left, out = os.pipe()
        os.close(left)
        try:
            answer = self.program.run(list(words[1:]), self.folder, self.given, out=out)
        finally:
            os.close(out)
        return answer.text + f"status {answer.status}\n".encode()

    def do_prompt(self, words: str, lines: list[str]) -> bytes:
        """Runs rpg2, with one record after another on standard input: the next only once something came for the one before."""
        with self.begun(words) as command:
            return given_each(command, lines, lambda: piece_of(command.stdout))

    def do_grows(self, words: str, lines: list[str]) -> bytes:
        """As `prompt`, but what comes is what a file grows by."""
        name, _, words = words.partition(" ")
        with self.begun(words) as command, open(self.path(name), "w+b", buffering=0) as file:
            return given_each(command, lines, lambda: growth_of(file))

    def begun(self, words: str) -> subprocess.Popen:
        """A command that runs. Its input and its output are pipes."""
        return subprocess.Popen(
            words.split(),
            executable=self.program.path,
            cwd=self.folder,
            stdin=subprocess.PIPE,
            stdout=subprocess.PIPE,
            stderr=subprocess.STDOUT,
            bufsize=0,
        )

    def do_text(self, name: str, lines: list[str]) -> bytes:
        self.path(name).write_bytes(text_of(lines))
        return b""

    def do_times(self, words: str, lines: list[str]) -> bytes:
        """Appends lines to a file, so many times; `@@@@` in them is which time it is, in four digits."""
        name, _, count = words.partition(" ")
        with open(self.path(name), "ab") as file:
            for time_of_it in range(1, int(count) + 1):
                file.write(text_of([it.replace("@@@@", f"{time_of_it:04}") for it in lines]))
        return b""

    def do_hex(self, name: str, lines: list[str]) -> bytes:
        self.path(name).write_bytes(hex_of(lines))
        return b""

    def do_fill(self, name: str, count: str, value: str) -> bytes:
        self.path(name).write_bytes(bytes([int(value)]) * int(count))
        return b""

    def do_leftovers(self, name: str, count: str) -> bytes:
        """Makes the files that so many killed runs leave beside a file."""
        for number in range(int(count)):
            self.path(f"{name}.{number}.new").touch()
        return b""

    def do_folder(self, name: str) -> bytes:
        self.path(name).mkdir()
        return b""

    def do_name(self, name: str, other: str) -> bytes:
        os.link(self.path(name), self.path(other))
        return b""

    def do_link(self, name: str, other: str) -> bytes:
        self.path(other).symlink_to(name)
        return b""

    def do_mode(self, name: str, *mode: str) -> bytes:
        """Gives a file permissions, in octal digits, or shows them."""
        if mode:
            self.path(name).chmod(int(mode[0], 8))
            return b""
        return f"{self.path(name).stat().st_mode & 0o7777:o}\n".encode()

    def do_other(self, *words: str) -> bytes:
        """Runs rpg2 as another user, who may write in the folder. It is a copy there, since its own folder may be closed to him."""
        self.folder.chmod(0o777)
        copy = Path(shutil.copy(self.program.path, self.path("the-program")))
        ended = subprocess.run(
            words,
            executable=copy,
            cwd=self.folder,
            stdin=self.given,
            stdout=subprocess.PIPE,
            stderr=subprocess.STDOUT,
            user=OTHER,
            group=OTHER,
            extra_groups=[],
            timeout=SECONDS,
            check=False,
        )
        return ended.stdout + f"status {ended.returncode}\n".encode()

    def do_owner(self, name: str) -> bytes:
        """Gives a file to the user whom `other` runs rpg2 as."""
        os.chown(self.path(name), OTHER, OTHER)
        return b""

    def do_group(self, name: str) -> bytes:
        """Gives a file to another group of the user's, or to his own if he has no other."""
        os.chown(self.path(name), -1, other_group())
        return b""

    def do_grouped(self, name: str) -> bytes:
        """Whether a file belongs to the group that `group` gives files to."""
        return b"the given group\n" if self.path(name).stat().st_gid == other_group() else b"another group\n"

    def do_copy(self, name: str, other: str) -> bytes:
        shutil.copyfile(self.path(name), self.path(other))
        return b""

    def do_change(self, name: str, other: str, place: str, value: str) -> bytes:
        changed = bytearray(self.path(name).read_bytes())
        changed[int(place)] = int(value)
        self.path(other).write_bytes(changed)
        return b""

    def do_show(self, name: str) -> bytes:
        return self.path(name).read_bytes() if self.path(name).exists() else b"no file\n"

    def do_bytes(self, name: str) -> bytes:
        return f"{self.path(name).read_bytes().hex()}\n".encode()

    def do_byte(self, name: str, place: str) -> bytes:
        return f"{self.path(name).read_bytes()[int(place)]}\n".encode()

    def do_pages(self, name: str) -> bytes:
        """Whether a file begins with what build/messages.py makes of what `rpg2 explain` prints, and goes on with another part."""
        pages = messages.page_of(self.program.run(["explain"], self.folder).text.decode())
        is_same = self.path(name).read_text(encoding="utf-8").startswith(f"{pages}\n{messages.SECOND_PART}\n")
        return b"the pages of all codes\n" if is_same else b"another text\n"


def other_group() -> int:
    """A group that the user can give files to, not his own if he has another; root has any."""
    own = os.getegid()
    return 12 if os.geteuid() == 0 else max((it for it in os.getgroups() if it != own), default=own)


def piece_of(pipe: IO[bytes]) -> bytes:
    """What comes out of a pipe next."""
    return os.read(pipe.fileno(), 1 << 16) if select.select([pipe], [], [], PATIENCE)[0] else b""


def drained(screen: IO[bytes]) -> bytes:
    """All that came to a terminal which nothing writes to any more: the read after it fails."""
    seen = b""
    while True:
        try:
            seen += screen.read(1 << 16)
        except OSError:
            return seen


def growth_of(file: IO[bytes]) -> bytes:
    """What a file that another process writes grows by next."""
    end = time.monotonic() + PATIENCE
    while time.monotonic() < end:
        if grown := file.read():
            return grown
        time.sleep(0.001)
    return b""


def given_each(command: subprocess.Popen, lines: list[str], next_piece: Callable[[], bytes]) -> bytes:
    """Gives a command one record after another, and returns each with what comes before the next is given, without the line feeds around it."""
    seen = b""
    for line in filter(None, lines):
        command.stdin.write(text_of([line]))
        seen += b"> " + text_of([line]) + (next_piece().strip(b"\n") or b"nothing came") + b"\n"
    command.stdin.close()
    rest = command.stdout.read().lstrip(b"\n")
    return seen + b"> end of file\n" + rest + f"status {command.wait(SECONDS)}\n".encode()


def furnish(folder: Path, top: Path) -> None:
    """Puts the examples and the pages of codes into a folder."""
    for path in [*top.glob("examples/*/*"), top / "docs/MESSAGES.md"]:
        shutil.copyfile(path, folder / path.name)


def compared(path: Path, command: Command, came: bytes, wanted: bytes) -> Outcome:
    place = f"{path.name}:{command.number}"
    if came == wanted:
        return Outcome(place, f"ok: {command.words}")
    sides = f"\n--- wanted\n{wanted.decode('latin-1')}--- came\n{came.decode('latin-1')}"
    return Outcome(place, f"DIFFERS: {command.words}", sides)


def show(program: Program, path: Path, top: Path) -> list[Outcome]:
    """Obeys the commands of a session, and compares what each prints with the expected text."""
    if path.name == OF_ROOT and os.geteuid() != 0:
        return []
    commands = commands_in(path)
    wanted = wanted_of(commands, path.with_suffix(".wanted").read_bytes())
    with tempfile.TemporaryDirectory() as name, open(path.with_name("stdin"), "rb", buffering=0) as given:
        folder = Path(name)
        furnish(folder, top)
        session = Session(program, folder, given)
        return [compared(path, it, session.seen(it), text) for it, text in zip(commands, wanted, strict=True)]
