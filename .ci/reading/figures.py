"""Numbers in documents that count what stands here: that the tree has as many."""
import re

import calls
import tree

SMALL = "none one two three four five six seven eight nine ten eleven twelve thirteen fourteen fifteen sixteen seventeen eighteen nineteen".split()
TENS = {word: 10 * at for at, word in enumerate("twenty thirty forty fifty sixty seventy eighty ninety".split(), 2)}
NUMBER = r"(?P<number>[0-9][0-9,]*|[A-Za-z]+(?:-[a-z]+)?)"
MOST_EDITS = 3
FUNCTION = re.compile(r"[a-z]+\(\) \{")
LOOP = re.compile(r"for \w+ in ([^;]*); do$")
CASE = re.compile(r"\s*(?:plays|answers|refuses|accepts|shows|rounds|owed) ")


def value_of(word):
    """The number that a word or digits spell, or None."""
    word = word.lower()
    if word[0].isdigit():
        return int(word.replace(",", ""))
    tens, _, ones = word.partition("-")
    if tens in TENS:
        return TENS[tens] + (SMALL.index(ones) if ones in SMALL else 0)
    return SMALL.index(word) if word in SMALL else None


def ensured(path):
    return len(re.findall(r"^\s+ensures ", tree.text_of(path), re.MULTILINE))


def variants(path, name):
    body = re.search(rf"pub enum {name} \{{(.*?)^\}}", tree.text_of(path), re.MULTILINE | re.DOTALL)[1]
    return len(re.findall(r"^    [A-Z][A-Za-z]*", body, re.MULTILINE))


def edits():
    return [path for path, _ in tree.of_part("must-fail")]


def first_files():
    """How many files ARCHITECTURE.md lists to start with."""
    listed = re.search(r"^## [^\n]* files to start with\n(.*?)^##? ", tree.text_of("docs/ARCHITECTURE.md"), re.MULTILINE | re.DOTALL)
    return sum(line.count("](") for line in listed[1].split("\n") if re.match(r"\d\.|   ", line)) if listed else 0


def cases():
    """How many runs of the program `.ci/programs` compares, by its lines and those of its tables."""
    total = 0
    for path in [".ci/programs", *(path for path in tree.files() if path.startswith(".ci/cases/"))]:
        times, in_function = 1, False
        for line in tree.lines_of(path):
            if FUNCTION.match(line):
                in_function = not line.endswith("}")
            elif line == "}":
                in_function = False
            elif match := LOOP.match(line):
                times = len(match[1].split())
            elif line == "done":
                times = 1
            elif CASE.match(line) and not in_function:
                total += times
    return total


def counted():
    """What documents may count, N in place of the number; how many there are; and from which number on it is said of all."""
    yield r"\bN\s+worked\s+runs\b", ensured("crates/relay_rows/src/runs.rt"), 1
    yield r"\bN\s+(?:wrong\s+runs\b|that\s+differ\s+from\s+such\s+a\s+run)", ensured("crates/relay_rows/src/wrong.rt"), 1
    yield r"\bN\s+must-fail\s+edits\b(?!\s+a\s+crate)", len(edits()), MOST_EDITS + 1
    yield r"\bthe\s+N\s+filters\b", variants("crates/ev_types/src/filter.rt", "FilterKind"), 1
    yield r"\bN\s+files\s+to\s+start\s+with\b", first_files(), 1
    yield r"\bN\s+cases\b", cases(), 20
    yield r"\bN\s+crates\b", len(tree.edges()), 20
    yield r"\bN\s+laws\b", len(list(calls.laws())), 20
    yield r"\bN\s+exported\s+functions\b", len(list(calls.exported())), 20


def faults():
    for path in tree.pages():
        text = tree.text_of(path)
        for words, count, least in counted():
            for match in re.finditer(words.replace("N", NUMBER, 1), text, re.IGNORECASE):
                said = value_of(match["number"])
                if said not in (None, count) and said >= least:
                    yield path, tree.line_at(text, match.start()), f"{' '.join(match[0].split())}: there are {count}"
    for crate in tree.edges():
        own = [path for path in edits() if path.startswith(f"crates/{crate}/")]
        if len(own) > MOST_EDITS:
            yield own[-1], 1, f"{len(own)} must-fail edits in {crate}, where {MOST_EDITS} tell most"


def counts():
    yield "must-fail edits", len(edits())
    yield "cases of programs", cases()
