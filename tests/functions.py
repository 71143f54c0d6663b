"""Finds the functions of a Rattle source by the places of their bodies, under the paths that rattle prints."""

import re
from dataclasses import dataclass

# Comments, texts and characters, whose brackets and words are no code.
IGNORED = re.compile(r'//[^\n]*|b?"(?:\\.|[^"\\])*"|b?\'(?:\\[^\n]{1,8}?|[^\\\'\n])\'', re.S)
CLAUSE = re.compile(r"\b(?:requires|ensures)\*?(?:\s+\w+)?\s*\{|\bghost\s+\w+\s*:\s*\{")
ITEM = re.compile(r"^[ \t]*(?:pub(?:\([^)]*\))?\s+)?(?:(?:const|unsafe|extern\s*\w*)\s+)*(fn|mod|trait|impl)\b", re.M)


@dataclass(frozen=True)
class Item:
    """A function, an impl, a trait or a module: where it starts, where its body does, and where it ends."""

    kind: str
    name: str
    start: int
    body: int
    end: int


def blanked(text):
    """Blanks for a piece of text, its lines kept."""
    return re.sub(r"[^\n]", " ", text)


def closed(text, at):
    """The place after the bracket that closes the one at this place."""
    depth = 0
    for spot in range(at, len(text)):
        depth += (text[spot] in "{([") - (text[spot] in "})]")
        if not depth:
            return spot + 1
    return len(text)


def code_of(text):
    """The text with comments, literals and clauses blanked, so that each bracket left is the code's."""
    text = IGNORED.sub(lambda it: blanked(it[0]), text)
    at = 0
    while it := CLAUSE.search(text, at):
        at = closed(text, it.end() - 1)
        text = text[: it.start()] + blanked(text[it.start() : at]) + text[at:]
    return text


def impl_name(head):
    """The name under which rattle has an impl: `impl<T: B> Trait<A> for Type<T>` is TypeTraitA, and `impl<T> Type<T>` is Type."""
    head = head.replace("->", "  ").split(" where ")[0].strip()
    if head.startswith("<"):
        depth = 0
        for at, sign in enumerate(head):
            depth += (sign == "<") - (sign == ">")
            if not depth:
                head = head[at + 1 :].strip()
                break
    ends = [re.match(r"[&\s]*(?:\w+::)*(\w+)\s*(?:<(.*)>)?", part) for part in head.replace("!", "").split(" for ")]
    if len(ends) == 1:
        return ends[0][1]
    given = [it.strip().split("::")[-1] for it in (ends[0][2] or "").split(",")]
    return ends[1][1] + ends[0][1] + "".join(it for it in given if re.fullmatch(r"\w+", it))


def items(text):
    """The items of a source that have a body, outer ones first."""
    code = code_of(text)
    for it in ITEM.finditer(code):
        at = it.end()
        while at < len(code) and code[at] not in "{;":
            at = closed(code, at) if code[at] in "([" else at + 1
        if at < len(code) and code[at] == "{":
            head = " ".join(code[it.end() : at].split())
            name = impl_name(head) if it[1] == "impl" else re.match(r"\w+", head)[0]
            yield Item(it[1], name, it.start(), at, closed(code, at))


def modules_of(place):
    """The modules that a source is, by its path in the crate's folder."""
    modules = [it for it in place.removeprefix("src/").removesuffix(".rt").split("/") if it != "mod"]
    return [] if modules in (["lib"], ["main"]) else modules


def function_at(place, text, at):
    """The path below the crate of the function whose body has this place, or None. `place` is the source's path in the crate's folder."""
    around = [it for it in items(text) if it.start <= at < it.end]
    inner = next((it for it in around if it.kind == "fn" and at > it.body), None)
    if inner is None:
        return None
    modules = [] if is_of_another_file(around, text) else modules_of(place)
    return "::".join([*modules, *(it.name for it in around if it.kind != "fn"), inner.name])


def is_of_another_file(around, text):
    """Whether a method is one of a type that another file declares: its path is then that file's, and its end serves."""
    impl = next((it for it in around if it.kind == "impl"), None)
    if impl is None or " for " in text[impl.start : impl.body]:
        return False
    return not re.search(rf"\b(?:struct|enum|union|trait)\s+{impl.name}\b", text)


def takes_types(around, text):
    """Whether a function, its impl or its trait has parameters of types, so that its theorem has them too."""
    for it in around:
        head = text[it.start : it.body]
        named = re.match(r"[^<(]*<((?:[^<>]|<[^<>]*>)*)>", head) if it.kind != "impl" else re.match(r"\s*impl\s*<((?:[^<>]|<[^<>]*>)*)>", head)
        given = [one.strip() for one in named[1].split(",")] if named else []
        if it.kind == "trait" or "impl Fn" in head or any(not one.startswith(("'", "const ")) for one in given if one):
            return True
    return False


def plain_functions(sources):
    """A crate's functions without parameters of types, by source and path. `sources` has the texts by their paths in the crate's folder."""
    homes = {it[1]: modules_of(place) for place, text in sources.items() for it in re.finditer(r"\b(?:struct|enum)\s+(\w+)", code_of(text))}
    for place, text in sources.items():
        found = list(items(text))
        for function in found:
            around = [it for it in found if it.start <= function.start and function.end <= it.end]
            if function.kind != "fn" or takes_types(around, text):
                continue
            path = function_at(place, text, function.body + 1)
            home = homes.get(path.split("::")[0], []) if is_of_another_file(around, text) else []
            yield place, function, "::".join([*home, path])


def without_body(text, function):
    """The source without what a function does: its body says that control never comes there. A `const fn` is left, since constants call it."""
    if re.search(r"\bconst\s+(?:unsafe\s+)?fn\b", text[function.start : function.body]):
        return text
    return f"{text[: function.body]}{{ unreachable!() }}{text[function.end :]}"
