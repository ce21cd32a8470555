#!/usr/bin/env python3
"""Prints what docs/GATE.md has of each crate's size, in the order of crates.txt: functions, and those with more than five clauses; lines,
of which those of clauses; must-fail edits and plants.

    docs/sizes.py

`docs/gate_times.py` prints the same beside the times of the gate."""

import collections
import pathlib
import re

TOP = pathlib.Path(__file__).resolve().parent.parent
HEADS = ("Functions", "of many clauses", "src", "clauses", "specs", "proofs", "Edits", "Plants")
Size = collections.namedtuple("Size", "functions many src clauses specs proofs edits plants")
FUNCTION = re.compile(r"\s*(?:pub(?:\([a-z]+\))? )?fn ")
CLAUSE = re.compile(r"\s*(?:requires|ensures)\b.*\{")
# Who reads a function takes in so many clauses.
MOST_CLAUSES = 5


def crates():
    """The names of all crates, in the order of crates.txt."""
    lines = (TOP / "crates.txt").read_text().splitlines()
    return [name for name in (line.split("#")[0].split(":")[0].strip() for line in lines) if name]


def lines(folder, pattern):
    return sum(len(file.read_text().splitlines()) for file in folder.rglob(pattern)) if folder.is_dir() else 0


def clauses(source):
    """Of each function how many clauses it has, and how many lines these take."""
    counts, is_within = [], False
    for line in source.splitlines():
        if FUNCTION.match(line):
            counts.append([0, 0])
            is_within = False
        elif counts and CLAUSE.match(line):
            counts[-1][0] += 1
            is_within = True
        elif line.strip() in ("{", "{}") or line.rstrip().endswith(";") and not line.startswith("    " * 3):
            is_within = False
        if is_within:
            counts[-1][1] += 1
    return counts


def edits(folder):
    """The names of a folder's edits, in the order in which they are tried."""
    return sorted(file.stem for file in folder.glob("*.edit")) if folder.is_dir() else []


def edits_of(name):
    return edits(TOP / "crates" / name / "must-fail")


def size(name):
    crate = TOP / "crates" / name
    source = "".join(file.read_text() for file in (crate / "src").rglob("*.rt"))
    counts = clauses(source)
    return Size(
        len(counts),
        sum(of > MOST_CLAUSES for of, _ in counts),
        lines(crate / "src", "*.rt"),
        sum(taken for _, taken in counts),
        lines(crate / "specs", "*.antt"),
        lines(crate / "proofs", "*.antt"),
        len(edits_of(name)),
        len(edits(TOP / "tests" / "plants" / name)),
    )


def main():
    print(f"| Crate | {' | '.join(HEADS)} |\n|{'---|' * (len(HEADS) + 1)}")
    sizes = {name: size(name) for name in crates()}
    for name, it in sizes.items():
        print(f"| `{name}` | {' | '.join(map(str, it))} |")
    print(f"\n{sum(it.edits for it in sizes.values())} edits in all, {sum(it.plants for it in sizes.values())} plants.")


if __name__ == "__main__":
    main()
