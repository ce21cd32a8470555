#!/usr/bin/env python3
"""Looks up each clause that docs/PROMISES.md names.

    docs/promises.py [--show NAME]

A name is `crate::function.clause`, `crate::Type::function.clause`, `crate::module::function`, or `crate::Record.field`, in backquotes; `.clause` goes
on with the name before it. A clause is one of the function's, or a field of a record that one of them names. Each name that isn't
found is printed with its line, and the status is 1 then. With --show the file and the line of one name are printed."""
import functools
import pathlib
import re
import sys

TOP = pathlib.Path(__file__).resolve().parent.parent
NAME = re.compile(r"`(ub_\w+(?:::\w+)+)(?:\.(\w+))?`|`\.(\w+)`")
FUNCTION = re.compile(r"\s*(?:pub(?:\([a-z]+\))? )?fn (\w+)")
OWNER = re.compile(r"(?:impl(?:<.*?>)? |pub trait )(?:.* for )?(\w+)")
FIELD = re.compile(r"\s+pub ([\w-]+) :")


@functools.cache
def records():
    """Of each record or abbreviation of specs/: its crate, file and line, and its fields."""
    found = {}
    for path in sorted(TOP.glob("crates/*/specs/**/*.antt")):
        crate, name = path.parts[len(TOP.parts) + 1], None
        for number, line in enumerate(path.read_text().splitlines(), 1):
            begun = re.match(r"(?:pub )?(?:record|data) (\w+)|abbrev (?:pub )?(\w+) :", line)
            if begun:
                name = begun[1] or begun[2]
                found.setdefault(name, []).append((crate, path, number, set()))
            elif not line.strip() or line.startswith("--"):
                name = None
            elif name and FIELD.match(line):
                found[name][-1][3].add(FIELD.match(line)[1])
    return found


@functools.cache
def functions(crate):
    """Of each function of a crate: its name, its module, its owner, its file and line, its clauses, and the words of these."""
    found = []
    for path in sorted((TOP / "crates" / crate / "src").rglob("*.rt")):
        owner, current = None, None
        for number, line in enumerate(path.read_text().splitlines(), 1):
            if OWNER.match(line):
                owner = OWNER.match(line)[1]
            elif line.startswith("}"):
                owner = None
            begun = FUNCTION.match(line)
            if begun:
                current = (begun[1], path.stem, owner, (path, number), set(), set())
                found.append(current)
            elif current and line.strip() in ("{", "{}"):
                current = None
            elif current:
                current[4].update(re.findall(r"^\s*ensures (\w+) \{", line))
                current[5].update(re.findall(r"\b[A-Z]\w+", line))
    return found


def place_of(path, clause):
    """Where a name stands, or None."""
    crate, *owners, name = path.split("::")
    for function, module, owner, place, clauses, words in functions(crate) if (TOP / "crates" / crate).is_dir() else []:
        if function == name and all(word in (module, owner) for word in owners):
            if not clause or clause in clauses or any(clause in own for word in words for *_, own in records().get(word, [])):
                return place
    for home, file, number, own in records().get(name, []):
        if home == crate and (not clause or clause in own):
            return file, number
    return None


def main():
    if sys.argv[1:2] == ["--show"] and len(sys.argv) == 3:
        path, _, clause = sys.argv[2].partition(".")
        place = place_of(path, clause)
        print(f"{place[0].relative_to(TOP)}:{place[1]}" if place else "none")
        return
    if len(sys.argv) > 1:
        sys.exit(__doc__)
    before, count, missing = None, 0, 0
    for number, line in enumerate((TOP / "docs" / "PROMISES.md").read_text().splitlines(), 1):
        for path, clause, more in NAME.findall(line):
            before = path or before
            if not before:
                continue
            count += 1
            if not place_of(before, clause or more):
                missing += 1
                print(f"PROMISES.md:{number}: there is no {before}{'.' if clause or more else ''}{clause or more}")
    print(f"promises.py: {count} names, {missing} not found")
    sys.exit(missing > 0)


if __name__ == "__main__":
    main()
