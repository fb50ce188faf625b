"""Words of specs/: that each has one meaning in the whole repository, and that no constant of the code is one.

A public word and the name of a file of `specs/` stand in one crate. `.ci/words_twice` lists those that stand in more, a line each with
its crates and the reason; a line that says more than is there is refused, so that the list gets shorter.
"""
import re

import tree

LIST = ".ci/words_twice"
WORD = re.compile(r"^(?:(?:abbrev|record|data)\s+pub|pub\s+(?:abbrev|record|data))\s+([^\s:({]+)", re.MULTILINE)
LINE = re.compile(r"^(\S+) \(([a-z0-9_, ]+)\): (.*)$")
CONSTANT = re.compile(r"\bTheConstants\b")


def specs():
    return [(path, crate) for path, crate in tree.of_part("specs") if not path.endswith("/Lib.antt")]


def stands_in(pairs):
    found = {}
    for word, crate, path, at in pairs:
        found.setdefault(word, {}).setdefault(crate, (path, at))
    return {word: places for word, places in found.items() if len(places) > 1}


def words():
    """The public words that stand in several crates: for each the crates, with a place in each."""
    return stands_in(
        (match[1], crate, path, tree.line_at(tree.text_of(path), match.start()))
        for path, crate in specs()
        for match in WORD.finditer(tree.text_of(path))
    )


def names():
    return stands_in((path.rpartition("/")[2], crate, path, 1) for path, crate in specs())


def twice():
    return {**words(), **names()}


def excused():
    """The lines of the list: for each its number, the word, the crates, and whether it has a reason."""
    for at, line in tree.listed(LIST):
        if match := LINE.match(line):
            yield at, match[1], set(match[2].split(", ")), bool(match[3])
        else:
            yield at, line, set(), False


def faults_of_list(found):
    seen = set()
    for at, word, crates, has_reason in excused():
        if word in seen or not has_reason:
            yield LIST, at, f"{word}: a line is `word (crate, crate): reason`, once for each word"
        elif crates - found.get(word, {}).keys():
            yield LIST, at, f"{word} stands no more in {', '.join(sorted(crates - found.get(word, {}).keys()))}: shorten the line"
        seen.add(word)


def faults():
    found = twice()
    yield from faults_of_list(found)
    known = {word: crates for _, word, crates, _ in excused()}
    for word, places in sorted(found.items()):
        if fresh := sorted(places.keys() - known.get(word, set())):
            path, at = places[fresh[-1]]
            yield path, at, f"{word} stands in {', '.join(sorted(places))}: one of them has to go, or another word"
    for path, _ in tree.of_part("specs"):
        for match in CONSTANT.finditer(tree.text_of(path)):
            yield path, tree.line_at(tree.text_of(path), match.start()), "a constant of the code in a definition"


def lower():
    """Drops from the list the words, and the crates of a word, that stand in it no more."""
    found, kept = twice(), []
    for line in tree.lines_of(LIST)[:-1]:
        if match := LINE.match(line):
            crates = [crate for crate in match[2].split(", ") if crate in found.get(match[1], {})]
            line = f"{match[1]} ({', '.join(crates)}): {match[3]}" if len(crates) > 1 else ""
        kept.append(line)
    (tree.TOP / LIST).write_text("".join(f"{line}\n" for line in kept if line), encoding="utf-8")


def counts():
    yield "public words of specs in two crates or more", len(words())
    yield "names of spec files in two crates or more", len(names())
