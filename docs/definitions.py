#!/usr/bin/env python3
"""Writes docs/DEFINITIONS.md from the comments of crates/*/specs, crate by crate in the order of crates.txt, and says which
files of the libraries and of `ubq` the first table of docs/ARCHITECTURE.md doesn't name, and which it names that aren't there
(status 1 where there are any).

    docs/definitions.py            writes the page
    docs/definitions.py --check    says whether the page is what it would write (status 1 where it isn't)

A file's head comment becomes a section's text, and the comment before each public definition its line; one with no comment
has its type instead. What stands in a folder `specs/inner/` is for proofs and private clauses alone, and is left out."""

import re
import sys

from specs import TOP, program_crates, spec_files, write_or_check

PAGE = TOP / "docs" / "DEFINITIONS.md"
MAP = TOP / "docs" / "ARCHITECTURE.md"
MAP_HEADING = "## Which crate a change belongs in"
UNNAMED = {"lib", "law", "main"}
HEAD = """# Definitions

What the contracts' words mean, crate by crate, lowest first. This page is made from the comments of
each crate's `specs/` by `docs/definitions.py`; the text of a definition stands below its comment in
the file named. One that has no comment there is shown with its type, and often goes with the one
above it. They are mathematics over lists and whole numbers. Most say what a result is. Some say how
far the code has come, for the contracts of its steps: the places that a search has passed, the
lanes of a word, the states of a reading of the grammar. What a reader must believe of all this to
trust the program's promise stands, in reading order and with its text, in BELIEVE.md.
"""


def type_of(definition):
    """What is shown of a definition with no comment: a record's fields, else its type."""
    first = definition.lines[0]
    if re.match("(pub )?(record|data) ", first):
        fields = [re.match(r" +(?:pub )?(\S+) :", line) for line in definition.lines[1:]]
        return "of " + ", ".join(f"`{field[1]}`" for field in fields if field)
    stated = [first.split(" : ", 1)[-1]]
    for line in definition.lines[1:]:
        if not line.startswith(" "):
            break
        stated.append(line.strip())
    return f"`{' '.join(stated)}`"


def entry(definition):
    if definition.comment:
        return f"- **`{definition.name}`**: {definition.comment}"
    return f"- **`{definition.name}`**: {type_of(definition)}"


def section(file):
    entries = [entry(definition) for definition in file.definitions if definition.is_public]
    head = [file.head, ""] if file.head else []
    return [f"### `{file.name}.antt`", "", *head, *entries, ""] if entries else []


def files_outside_inner(crate):
    return [file for file in spec_files(crate) if not file.name.startswith("inner.")]


def page():
    lines = [HEAD]
    for crate in program_crates():
        told = [line for file in files_outside_inner(crate) for line in section(file)]
        if told:
            lines += [f"## {crate}", "", *told]
    return "\n".join(lines).rstrip("\n") + "\n"


def rows_of_map():
    """The rows of the first table of ARCHITECTURE.md, each as the words in backquotes of its cells but the first: crates,
    definitions and code."""
    table = MAP.read_text().split(MAP_HEADING, 1)[-1].split("\n## ", 1)[0]
    for row in re.findall(r"^\|(.*)\|$", table, re.M):
        yield [re.findall("`([^`]+)`", cell) for cell in row.split("|")[1:]]


def named_in_map():
    """The pairs of a crate and a word in the same row."""
    return {(crate, word) for crates, *cells in rows_of_map() for crate in crates for cell in cells for word in cell}


def lost_in_map():
    """The files that a row names and none of its crates has. Definitions may stand in a crate that is named beside them."""
    for crates, definitions, code in rows_of_map():
        homes = [TOP / "crates" / crate for crate in [*crates, *definitions]]
        specs = [word for word in definitions if word[:1].isupper()]
        paths = [(word, f"specs/{inner}{word}.antt") for word in specs for inner in ("", "inner/")]
        paths += [(word, f"src/{word}") for word in code if re.fullmatch(r"\w+\.rt", word)]
        there = {word for word, path in paths for home in homes if (home / path).is_file()}
        yield from sorted({(crates[0], word) for word, _ in paths if word not in there})


def lacking_in_map():
    """The files of the libraries and of `ubq` that the table doesn't name in a row of their crate, without those that only pass names on."""
    named = named_in_map()
    for crate in program_crates():
        sources = sorted((TOP / "crates" / crate / "src").glob("*.rt"))
        words = [(path.name, f"src/{path.name}") for path in sources if path.stem not in UNNAMED]
        words += [(file.name, f"specs/{file.name}.antt") for file in files_outside_inner(crate) if file.definitions]
        for word, path in words:
            if (crate, word) not in named:
                yield f"crates/{crate}/{path}"


def main():
    status = write_or_check(PAGE, page(), "definitions.py", sys.argv[1:])
    for path in lacking_in_map():
        print(f"docs/ARCHITECTURE.md doesn't name {path} in a row of its crate (first table)")
        status = 1
    for crate, word in lost_in_map():
        print(f"docs/ARCHITECTURE.md names {word} in a row of {crate}, and it isn't there (first table)")
        status = 1
    return status


if __name__ == "__main__":
    sys.exit(main())
