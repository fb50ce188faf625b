"""What stands in the repository: its files, its crates and what each stands on."""
import functools
import pathlib
import re
import subprocess

TOP = pathlib.Path(__file__).resolve().parent.parent.parent
TESTS = "_tests"


@functools.cache
def files():
    listed = subprocess.run(["git", "ls-files"], cwd=TOP, capture_output=True, text=True, check=True)
    return [path for path in listed.stdout.split("\n")[:-1] if (TOP / path).is_file()]


@functools.cache
def text_of(path):
    return (TOP / path).read_text(encoding="utf-8")


@functools.cache
def lines_of(path):
    return text_of(path).split("\n")


def parts():
    """Each file of a crate: its path, its crate, and its part (src, specs, proofs, must-fail)."""
    for path in files():
        pieces = path.split("/")
        if pieces[0] == "crates" and len(pieces) > 3:
            yield path, pieces[1], pieces[2]


def of_part(*names):
    return [(path, crate) for path, crate, part in parts() if part in names]


@functools.cache
def edges():
    """For each crate of crates.txt the line that it stands in and what it stands on, others' crates among them."""
    found = {}
    for at, line in enumerate(lines_of("crates.txt"), 1):
        if line and not line.startswith("#"):
            name, _, rest = line.partition(":")
            found[name.split()[0]] = (at, rest.split())
    return found


def own(name):
    return name in edges()


@functools.cache
def below(name):
    """All crates of our own that a crate stands on, directly or not."""
    found = set()
    for other in edges()[name][1]:
        if own(other):
            found |= {other} | below(other)
    return frozenset(found)


def reduced(name):
    """What a crate stands on directly, and through nothing else."""
    listed = [other for other in edges()[name][1] if own(other)]
    return sorted(other for other in listed if not any(other in below(between) for between in listed))


def pages():
    return [path for path in files() if path.endswith(".md")]


def is_test_crate(name):
    return name.endswith(TESTS)


def listed(path):
    """The lines of a list of ours that are no comments, with their numbers."""
    lines = enumerate(lines_of(path), 1) if (TOP / path).exists() else ()
    return [(at, line.strip()) for at, line in lines if line.strip() and not line.startswith("#")]


def line_at(text, position):
    return text.count("\n", 0, position) + 1


WORD = re.compile(r"[A-Za-z_][A-Za-z0-9_'-]*")
