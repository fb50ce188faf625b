"""What crates stand on: that crates.txt lists what is used, and that ARCHITECTURE.md draws what it lists.

A crate that is listed has to be named in a file of the one that lists it. ARCHITECTURE.md has a table whose first column names each crate
once. Where the table's last column is headed "Stands on", it says what a crate stands on directly and through nothing else. In a drawing
(a block of `text` with ten crates or more) no crate stands on one that is drawn above it.
"""
import functools
import re

import tree

PAGE = "docs/ARCHITECTURE.md"
HEAD = re.compile(r"^\|\s*Crate\s*\|")
NAME = re.compile(r"`([a-z0-9_]+)`")
DRAWING = re.compile(r"^```text\n(.*?)^```", re.MULTILINE | re.DOTALL)


def dead_edges():
    """Each crate with what it lists and none of its files names."""
    for name, (_, listed) in tree.edges().items():
        texts = [tree.text_of(path) for path, crate in tree.of_part("src", "specs", "proofs", "tests") if crate == name]
        for other in listed:
            use = re.compile(rf"\b(?:{other}::|use {other}\b|Rattle\.{other}\.)")
            if not any(use.search(text) for text in texts):
                yield name, other


def unused():
    for name, other in dead_edges():
        yield "crates.txt", tree.edges()[name][0], f"{name} lists {other}, which none of its files names"


def lower():
    """Drops from crates.txt what no file names."""
    dead = {}
    for name, other in dead_edges():
        dead.setdefault(name, set()).add(other)
    lines = list(tree.lines_of("crates.txt"))
    for name, others in dead.items():
        at, listed = tree.edges()[name]
        head = lines[at - 1].partition(":")[0]
        lines[at - 1] = f"{head}: {' '.join(other for other in listed if other not in others)}"
    (tree.TOP / "crates.txt").write_text("\n".join(lines), encoding="utf-8")


def rows():
    """The rows of the table of crates: the line, the crates in front, and what they stand on where the table says so."""
    in_table = says_edges = False
    for at, line in enumerate(tree.lines_of(PAGE), 1):
        if HEAD.match(line):
            in_table, says_edges = True, line.rstrip(" |").endswith("Stands on")
        elif in_table and line.startswith("|"):
            cells = line.strip().strip("|").split("|")
            yield at, NAME.findall(cells[0]), sorted(NAME.findall(cells[-1])) if says_edges else None
        else:
            in_table = False


def misdrawn():
    seen = {}
    for at, names, said in rows():
        for name in names:
            if name in seen:
                yield PAGE, at, f"{name} stands in line {seen[name]} too"
            seen[name] = at
            if not tree.own(name):
                yield PAGE, at, f"no crate {name}"
            elif said is not None and said != tree.reduced(name):
                yield PAGE, at, f"{name} stands on {', '.join(tree.reduced(name)) or 'nothing'}, by crates.txt"
    for name in tree.edges():
        if name not in seen:
            yield PAGE, 1, f"{name} is in no row of the table of crates"


def upside_down():
    text = tree.text_of(PAGE)
    for drawing in DRAWING.finditer(text):
        first = tree.line_at(text, drawing.start(1))
        drawn = [
            (first + at, word)
            for at, line in enumerate(drawing[1].split("\n"))
            for word in tree.WORD.findall(line)
            if tree.own(word)
        ]
        for at, name in drawn if len(drawn) >= 10 else ():
            for above in {other for line, other in drawn if line < at} & tree.below(name):
                yield PAGE, at, f"{name} stands on {above}, which is drawn above it"


def faults():
    yield from unused()
    yield from misdrawn()
    yield from upside_down()


@functools.cache
def chain_from(name):
    """The longest way down from a crate, as crates from the top."""
    return (name, *max((chain_from(other) for other in tree.edges()[name][1] if tree.own(other)), key=len, default=()))


def counts():
    own = sum(len([other for other in listed if tree.own(other)]) for _, listed in tree.edges().values())
    chain = max(map(chain_from, tree.edges()), key=len)
    yield "crates", len(tree.edges())
    yield "edges between them", own
    yield "edges that nothing else implies", sum(len(tree.reduced(name)) for name in tree.edges())
    yield "longest chain", f"{len(chain)}: {' > '.join(chain)}"
