"""Sentences of the rules of `rpg2 fit`: each change, note and refusal stands in a case of tests/fit or in a session."""

import re
from pathlib import Path

HERE = Path(__file__).resolve().parent
TOKEN = re.compile(r"""//.*|b'(?:\\.|.)'|b?"(?:\\.|[^"\\])*\"""")


def sentences() -> list[str]:
    """The texts of several words in the code of the rules."""
    code = "\n".join(path.read_text(encoding="utf-8") for path in sorted(HERE.parent.glob("crates/rpg_fit*/src/*.rt")))
    return list(dict.fromkeys(it[1:-1] for it in TOKEN.findall(code) if it[0] == '"' and " " in it))


def unshown() -> list[str]:
    """The sentences that no case and no session shows."""
    told = "\n".join(path.read_text(encoding="latin-1") for part in ("fit/*.told", "sessions/*.wanted") for path in sorted(HERE.glob(part)))
    return [it for it in sentences() if not re.search(re.escape(it).replace("%", r"\S.*") + r"(?: \[A\d+\])?$", told, re.M)]
