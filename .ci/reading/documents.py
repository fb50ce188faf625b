"""Documents: that what they cite of ours is there.

An example in a crate's README, a block of `rust`, has to stand line for line in a use of the library, which the gate proves and runs.

In every README and every page of docs/ a word in backquotes that looks like a call or a type (it has an underscore, a capital
letter in front or `::`), or like a file, has to stand in the sources: as an item of a .rt file, a word of an .antt file, a crate, or a
file. A link has to lead to a file. `.ci/foreign_names` lists what belongs to others, a pattern a line.
"""
import fnmatch
import pathlib
import re

import tree

ITEM = re.compile(
    r"\b(?:fn|struct|enum|trait|const|mod|type|ghost)\s+(?:use\s+)?([A-Za-z_][A-Za-z0-9_]*)"
)
VARIANT = re.compile(r"^\s{4,}([A-Z][A-Za-z0-9]*)\s*(?:[({,]|$)", re.MULTILINE)
CLAUSE = re.compile(r"\b(?:ensures|requires)\s+([a-z_][a-z0-9_]*)\s*\{")
FIELD = re.compile(r"^\s+(?:pub(?:\([a-z]+\))?\s+)?([a-z_][a-z0-9_]*)\s*:", re.MULTILINE)
WORD = re.compile(
    r"^\s*(?:pub )?(?:abbrev|record|data|pub|module)?\s*(?:pub )?([A-Za-z_][A-Za-z0-9_'-]*)\s*(?:\([^)]*\)\s*)*:",
    re.MULTILINE,
)
RECORD = re.compile(r"^\s*(?:abbrev|record|data)\s+(?:pub\s+)?([A-Za-z_][A-Za-z0-9_'-]*)|^\s*pub record ([A-Za-z_][A-Za-z0-9_]*)", re.MULTILINE)
SPAN = re.compile(r"`([^`\n]+)`")
LINK = re.compile(r"\]\(([^)#\s]+)(?:#[^)]*)?\)")
FENCE = re.compile(r"^```.*?^```[^\n]*$", re.MULTILINE | re.DOTALL)
EXAMPLE = re.compile(r"^```rust\n(.*?)^```", re.MULTILINE | re.DOTALL)
NAME = re.compile(r"^[A-Za-z_][A-Za-z0-9_']*(?:(?:::|\.)[A-Za-z_][A-Za-z0-9_']*)*(?:\(\))?$")
FILE = re.compile(r"^[A-Za-z0-9_./-]+\.(?:rt|antt|md|sh|edit|script|txt)$")


def known_names(files):
    """The names of all items, and for each type the names that stand in a file that speaks of it."""
    names, members = set(), {}
    for path in files:
        part = pathlib.PurePosixPath(path)
        names.update(part.parts[:-1])
        names.add(part.stem)
        if part.suffix not in (".rt", ".antt"):
            continue
        text = tree.text_of(path)
        if part.suffix == ".rt":
            here = set(ITEM.findall(text)) | set(VARIANT.findall(text)) | set(FIELD.findall(text)) | set(CLAUSE.findall(text))
        else:
            here = set(WORD.findall(text)) | {a or b for a, b in RECORD.findall(text)}
        names |= here
        for owner in set(re.findall(r"\b[A-Z][A-Za-z0-9]*\b", text)):
            members.setdefault(owner, set()).update(here)
    return names, members


def is_ours(span, names, members):
    """Whether a name, perhaps with its owner in front, stands somewhere."""
    parts = re.split(r"::|\.", span.removesuffix("()"))
    if parts[-1] not in names:
        return False
    return len(parts) == 1 or (parts[-2] in names and parts[-1] in members.get(parts[-2], names))


def looks_like_ours(span):
    if not NAME.match(span):
        return False
    return "_" in span.strip("_") or "::" in span or span.endswith("()") or bool(re.match(r"[A-Z][a-z]", span))


def is_file(span, page, files):
    return any(path == span or path.endswith("/" + span) for path in files) or (page.parent / span).exists()


def uncited(path, names, members, foreign):
    page = tree.TOP / path
    text = FENCE.sub(lambda fence: "\n" * fence[0].count("\n"), tree.text_of(path))
    for match in SPAN.finditer(text):
        span, at = match[1], tree.line_at(text, match.start())
        if any(fnmatch.fnmatchcase(span, pattern) for pattern in foreign):
            continue
        if FILE.match(span):
            if not is_file(span, page, tree.files()):
                yield path, at, f"no file `{span}`"
        elif looks_like_ours(span) and not is_ours(span, names, members):
            yield path, at, f"no item `{span}`"
    for match in LINK.finditer(text):
        if "://" not in match[1] and not (page.parent / match[1]).exists():
            yield path, tree.line_at(text, match.start()), f"a link to {match[1]}, which is not there"


def stripped(text):
    return [line.strip() for line in text.split("\n") if line.strip()]


def unused_examples(path, uses):
    text = tree.text_of(path)
    for match in EXAMPLE.finditer(text):
        lines = stripped(match[1])
        if not any(use[at : at + len(lines)] == lines for use in uses for at in range(len(use))):
            yield path, tree.line_at(text, match.start()), f"an example that is no use of the library: {lines[0] if lines else 'empty'}"


def faults():
    uses = [stripped(tree.text_of(path)) for path in tree.files() if "library_uses/src/" in path]
    names, members = known_names(tree.files())
    foreign = [pattern for _, pattern in tree.listed(".ci/foreign_names")]
    for path in tree.pages():
        yield from uncited(path, names, members, foreign)
        yield from unused_examples(path, uses)


def counts():
    yield "pages", len(tree.pages())
    yield "words of documents", sum(len(tree.text_of(path).split()) for path in tree.pages())
