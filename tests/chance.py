"""Random sources, by rules that are data: README.md describes how they are written."""

import random
from pathlib import Path

from case_file import lines_in


class Rules:
    """The rules of a file, each with the texts of which one is taken."""

    def __init__(self, path: Path):
        self.texts: dict[str, list[str]] = {}
        for line in lines_in(path):
            if line.startswith("="):
                self.texts[line[1:]] = texts = []
            elif self.texts:
                texts.append(line)

    def made(self, name: str, chance: random.Random) -> str:
        """A text of a rule, with all rules that it names done."""
        return Maker(self, chance).made(name)


class Maker:
    """A text under way, with the contents of columns 7 and 8, and the part."""

    def __init__(self, rules: Rules, chance: random.Random):
        self.rules, self.chance = rules, chance
        self.cards, self.level, self.part = [""], "  ", ""

    def made(self, name: str) -> str:
        self.follow(name)
        return "\n".join(self.cards)

    def follow(self, name: str) -> None:
        """Adds a text of a rule: words between `<` and `>` are instructions, and the rest is copied."""
        text = self.chance.choice(self.rules.texts[name.replace("^", self.part)])
        while text:
            front, _, following = text.partition("<")
            self.put(front)
            word, _, text = following.partition(">")
            if word:
                self.say(word)

    def put(self, text: str) -> None:
        for it in text.replace("@", self.level):
            if it == "|":
                self.cards.append("")
            else:
                self.cards[-1] += it

    def say(self, word: str) -> None:
        if word.isdigit():
            self.cards[-1] = self.cards[-1].ljust(int(word) - 1)
        elif word.startswith("!"):
            self.level, _, self.part = word[1:].partition(",")
        else:
            self.follow(word)
