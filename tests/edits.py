#!/usr/bin/env python3
"""Holds the first line of each must-fail edit, which says what refuses it, against what the prover answered.

    tests/edits.py LOG [--write]

LOG is what `rt ci` or `rt must-fail` printed. An edit's first line is "# Refused by `FUNCTION`'s `CLAUSE`: WHY", where the clause is one of the
function's, or a field of its record; a function with one clause that has no name is named alone. The prover names the function by the folder of
its proof or a line of its code, and the clause by the goal that stayed open. Where that is a loop's invariant, what a call requires, or a record of
which no field is named, the line names the clause that a person would: then any is right that the function has. Each line that says otherwise is
printed, each edit that was not refused, and each that was refused in a lemma and not in a goal; the last line counts. With --write an edit with no
such line gets one. Edits that LOG doesn't have are not looked at."""
import pathlib
import re
import sys

TOP = pathlib.Path(__file__).resolve().parent.parent
sys.path.insert(0, str(TOP / "docs"))

from promises import place_of

VERDICT = re.compile(r"must-fail (\w+)/(\w+)\.edit: (.*)")
ANSWER = re.compile(r"\./proofs/((?:[^/: ]+/)+)(?:Answers|Invariants)\.antt:(\d+)")
# A line of the log may be cut within the goal's name.
UNPROVED = re.compile(r"src/([\w/]+\.rt):(\d+):\d+: it is not proved .*?\(`([\w+-]+)(?:`\)|$)")
FUNCTION = re.compile(r"\s*(?:pub(?:\([a-z]+\))? )?fn (\w+)")
HEAD = re.compile(r"# Refused by `([\w:]+)`(?:'s `(\w+)`)?: ")
DEFINED = re.compile(r"(?:pub |abbrev )*([\w+-]+) : (goal\.)?")
FIELD = re.compile(r"\s+(\w+) = ")
# What is no clause's name.
GOALS = ("returns", "invariant", "requires")


def answered(crate, path, number):
    """The goal of the answer at this line of a function's proof file, or of the first one that uses the lemma there; and the field of a
    record that is made at the line, or None."""
    lines = (TOP / "crates" / crate / "proofs" / path / "Answers.antt").read_text().splitlines()
    field = None
    for place in range(number - 1, -1, -1):
        begun = DEFINED.match(lines[place])
        if begun:
            return (begun[1] if begun[2] else user_of(lines, begun[1])), field
        field = field or (FIELD.match(lines[place]) or [None, None])[1]
    return "", field


def user_of(lines, lemma):
    """The first goal whose answer uses a lemma of its file."""
    goal = ""
    for line in lines:
        begun = DEFINED.match(line)
        if begun:
            goal = begun[1] if begun[2] else ""
        elif goal and not line.startswith("--") and re.search(rf"(?<![\w-]){re.escape(lemma)}(?![\w-])", line):
            return goal
    return ""


def clause_of(goal, field):
    """The clause that a goal is of: its last word behind `clause-`, or the field of the record, or what kind of goal it is."""
    if "-requires" in goal:
        return "requires"
    if "-clause-" in goal:
        return goal.rsplit("-clause-", 1)[1].split("-")[0]
    return (field or "returns") if goal == "returns" or goal.startswith("returns-") else "invariant"


def refused_by(crate, text):
    """The function and the clause by which the prover refused an edit, or None, where it names none of a function."""
    at = ANSWER.search(text)
    if at:
        goal, field = answered(crate, at[1], int(at[2])) if "Answers" in text else ("loop", None)
        return at[1].strip("/").split("/")[-1].lstrip("+"), clause_of(goal, field)
    open_goal = UNPROVED.search(text)
    return open_goal and (function_at(crate, open_goal[1], int(open_goal[2])), clause_of(open_goal[3], None))


def function_at(crate, path, number):
    """The function in whose contract or body a line stands."""
    lines = (TOP / "crates" / crate / "src" / path).read_text().splitlines()
    return next((found[1] for found in map(FUNCTION.match, reversed(lines[:number])) if found), "")


def is_clause(crate, said, clause):
    """Whether a first line names the clause that the prover does, or one of the function's where the prover names none."""
    if clause in GOALS or not said[2]:
        return bool(place_of(f"{crate}::{said[1]}", said[2]))
    return said[2] == clause


def main():
    words = [word for word in sys.argv[1:] if word != "--write"]
    if len(words) != 1:
        sys.exit(__doc__)
    right = wrong = 0
    for crate, name, text in VERDICT.findall(pathlib.Path(words[0]).read_text()):
        edit = TOP / "crates" / crate / "must-fail" / f"{name}.edit"
        by = refused_by(crate, text) if text.startswith("refused") else None
        lines = edit.read_text()
        said = HEAD.match(lines)
        if by and not said and "--write" in sys.argv:
            edit.write_text(f"# Refused by `{by[0]}`'s `{by[1]}`: {name.replace('_', ' ')}\n{lines}")
            said = HEAD.match(edit.read_text())
        is_right = bool(by and said) and said[1].split("::")[-1] == by[0] and is_clause(crate, said, by[1])
        right, wrong = right + is_right, wrong + (not is_right)
        if not is_right:
            print(f"{crate}/{name}: says {said and said[0]!r}; the prover: {by or text[:200]}")
    print(f"edits.py: {right} right, {wrong} wrong")
    sys.exit(wrong > 0)


if __name__ == "__main__":
    main()
