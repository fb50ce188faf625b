"""Sizes: lines under 140 characters, and files and functions that are read in one go.

`.ci/most` says how many of each kind may be longer, a line a kind. A number there only falls: fewer are a fault too, until the number is
lowered (`.ci/names --lower`).
"""
import calls
import tree

LIST = ".ci/most"
WIDTH, FUNCTION, SOURCE, SPEC = 140, 40, 500, 150
SOURCES, SPECS, PROOFS = "src", "specs", "proofs"


def wide(part):
    for path, _ in tree.of_part(part):
        for at, line in enumerate(tree.lines_of(path), 1):
            if len(line) > WIDTH:
                yield path, at, f"{len(line)} characters"


def long_files(part, most):
    for path, _ in tree.of_part(part):
        length = len(tree.lines_of(path)) - 1
        if length > most:
            yield path, 1, f"{length} lines"


def long_functions():
    for it in calls.functions():
        if it.length > FUNCTION:
            yield it.path, it.at, f"`{it.name}` has {it.length} lines"


def kinds():
    for part in (SOURCES, SPECS, PROOFS):
        yield f"lines of {part} over {WIDTH} characters", list(wide(part))
    yield f"functions over {FUNCTION} lines", list(long_functions())
    yield f"files of src over {SOURCE} lines", list(long_files(SOURCES, SOURCE))
    yield f"files of specs over {SPEC} lines", list(long_files(SPECS, SPEC))


def allowed():
    return {kind.strip(): int(number) for _, line in tree.listed(LIST) for number, _, kind in [line.partition(" ")]}


def faults():
    most = allowed()
    for kind, found in kinds():
        if len(found) > most.get(kind, 0):
            yield LIST, 1, f"{len(found)} {kind}, where {most.get(kind, 0)} may stand; `.ci/names --long` lists them"
        elif len(found) < most.get(kind, 0):
            yield LIST, 1, f"only {len(found)} {kind} by now: lower the number"


def listed():
    """All that is longer than it should be."""
    for _, found in kinds():
        yield from found


def lower():
    most = allowed()
    head = [line for line in tree.lines_of(LIST) if line.startswith("#")] if (tree.TOP / LIST).exists() else []
    rows = [f"{min(len(found), most.get(kind, len(found)))} {kind}" for kind, found in kinds()]
    (tree.TOP / LIST).write_text("\n".join([*head, *rows]) + "\n", encoding="utf-8")


def counts():
    for part in (SOURCES, SPECS, PROOFS):
        paths = [path for path, crate in tree.of_part(part) if not tree.is_test_crate(crate)]
        yield f"lines of {part}", sum(len(tree.lines_of(path)) - 1 for path in paths)
    tests = [path for path, crate in tree.of_part("src", "specs", "proofs", "tests") if tree.is_test_crate(crate) or "/tests" in path]
    yield "lines of tests", sum(len(tree.lines_of(path)) - 1 for path in tests)
    for kind, found in kinds():
        yield kind, len(found)
