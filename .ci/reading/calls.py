"""Exported functions: that the doc comment of each says what it costs and whose it is.

A function is exported if it is public and its name, or its type's, is one that its crate's `lib.rt` gives. What runs nothing (a law, whose
body is empty) costs nothing and is nobody's. The cost is a sentence with the word cost, constant, linear or logarithm, or "as `X`", where X
says one; a type can say what each call takes. The source is a line `Libevent: ..` or `Own.`, of the function or of its type.
"""
import functools
import re
from typing import NamedTuple

import tree

FUNCTION = re.compile(r"^(\s*)(pub(?:\([a-z]+\))? )?(?:const )?(?:unsafe )?fn ([A-Za-z0-9_]+)")
OWNER = re.compile(r"^impl\b(?:<[^{]*?>)?\s+(?:[^{]*?\bfor\s+)?([A-Za-z0-9_]+)")
TYPE = re.compile(r"^pub (?:struct|enum|trait) ([A-Za-z0-9_]+)")
GIVEN = re.compile(r"\bpub use\s+([^;]+);")
COST = re.compile(r"\bcosts?\b|\bconstant\b|\blinear\b|\blogarithm", re.IGNORECASE)
AS = re.compile(r"\b[Aa]s\s+`(?:[A-Za-z]+::)?([a-z0-9_]+)`|\b[Cc]osts\s+what\s+`(?:[A-Za-z]+::)?([a-z0-9_]+)`")
EACH = re.compile(r"\b[Ee]ach\s+call\s+takes\s+constant\s+time\b|\b[Ee]ach\s+call\s+costs\b")
SOURCE = re.compile(r"\bLibevent: |\bOwn[.,;]")
ITEM = re.compile(r"^pub (?:fn|struct|enum|trait|const|mod) ([A-Za-z0-9_]+)", re.MULTILINE)


class Function(NamedTuple):
    path: str
    crate: str
    at: int
    owner: str
    name: str
    public: bool
    doc: str
    length: int
    body: list


def doc_above(lines, at):
    """The doc comment above a line, as one text."""
    first = at
    while first > 0 and lines[first - 1].strip().startswith(("///", "#[")):
        first -= 1
    return "\n".join(line.strip().removeprefix("///").strip() for line in lines[first:at] if "///" in line)


def ends_of(lines, at, indent):
    """The lines at which the body of a function begins and ends, the same where there is none or it is empty."""
    for i in range(at, len(lines)):
        line = lines[i]
        closes = i == at or line.startswith(indent + ")")
        if line == indent + "{" or (closes and line.endswith(" {")):
            return i, lines.index(indent + "}", i)
        if line == indent + "{}" or (closes and line.endswith((";", "}"))):
            return i, i
        if line.endswith(";") and line.startswith(indent + "    ") and not line.startswith(indent + "     "):
            return i, i
    return at, at


def functions_of(path, crate):
    lines, owner = tree.lines_of(path), ""
    for at, line in enumerate(lines):
        if match := OWNER.match(line):
            owner = match[1]
        elif line == "}":
            owner = ""
        if match := FUNCTION.match(line):
            begin, end = ends_of(lines, at, match[1])
            body = [inner.strip() for inner in lines[begin + 1 : end] if inner.strip()]
            whose, public = owner if match[1] else "", match[2] == "pub "
            yield Function(path, crate, at + 1, whose, match[3], public, doc_above(lines, at), end - at + 1, body)


@functools.cache
def functions():
    return [it for path, crate in tree.of_part("src") if path.endswith(".rt") for it in functions_of(path, crate)]


def given_by(crate):
    """The names that a crate's lib.rt gives."""
    path = f"crates/{crate}/src/lib.rt"
    if path not in tree.files():
        return set()
    text = tree.text_of(path)
    return {word for use in GIVEN.findall(text) for word in tree.WORD.findall(use)} | set(ITEM.findall(text))


def exported():
    given = {crate: set() if tree.is_test_crate(crate) else given_by(crate) for crate in tree.edges()}
    for it in functions():
        if it.public and (it.owner or it.name) in given.get(it.crate, ()):
            yield it


def types_that_say(said):
    """The types whose doc comment has this, each with its crate."""
    for path, crate in tree.of_part("src"):
        lines = tree.lines_of(path)
        for at, line in enumerate(lines):
            if (match := TYPE.match(line)) and said.search(doc_above(lines, at)):
                yield crate, match[1]


def says_cost(it, by_name, seen=frozenset()):
    if COST.search(AS.sub("", it.doc)):
        return True
    others = [other for found in AS.findall(it.doc) for other in by_name.get(found[0] or found[1], ()) if other != it]
    return any(other.name not in seen and says_cost(other, by_name, seen | {it.name, other.name}) for other in others)


def faults():
    by_name, sourced, costed = {}, set(types_that_say(SOURCE)), set(types_that_say(EACH))
    for it in functions():
        by_name.setdefault(it.name, []).append(it)
    for it in exported():
        if it.body and (it.crate, it.owner) not in costed and not says_cost(it, by_name):
            yield it.path, it.at, f"`{it.name}` says no cost"
        if it.body and (it.crate, it.owner) not in sourced and not SOURCE.search(it.doc):
            yield it.path, it.at, f"`{it.name}` names no source"


FORWARD = re.compile(r"^self\.(?:[a-z_0-9]+\.)+([a-z_0-9]+)\([a-z_0-9, &]*\)\??$")


def forwards():
    """Methods that only call the method of the same name of a field, with names alone for arguments."""
    for it in functions():
        if len(it.body) == 1 and (match := FORWARD.match(it.body[0])) and match[1] == it.name and not tree.is_test_crate(it.crate):
            yield it


def laws():
    """Functions that do nothing, whose contract is a law."""
    for it in functions():
        if it.public and not it.body and not it.owner and tree.lines_of(it.path)[it.at + it.length - 2] == "{}":
            yield it


def counts():
    yield "exported functions", len(list(exported()))
    yield "laws on functions that do nothing", len(list(laws()))
    yield "methods that only forward to a field's of the same name", len(list(forwards()))
