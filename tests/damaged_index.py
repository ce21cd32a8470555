#!/usr/bin/env python3
"""Damages each entry of an index of two levels in turn, and asks the program for all rows, for groups and for a plan, by hand; and
does so with the nine damages of the table of five rows.

    tests/damaged_index.py [PROGRAM]

The table has 400 rows in ascending order, two on a page: 200 regions, whose entries stand on two leaves, and a root that names
these. What a damaged entry must be told as follows from docs/FORMATS.md: its page by the checks of the page that it stands on,
or else by those of the page that it names. The last line tells how many runs were right and wrong; the status is 1 where one
was wrong.
"""
import os
import subprocess
import sys
import tempfile

from lib.pages import PAGE, entries_on, entry_bytes, number_at, number_bytes
from lib.program import FIVE_ROWS, counts, judge, program
from lib.regions import ORIGIN

ROWS = 400
ALL = b"SELECT x FROM t;"
GROUPS = b"SELECT x, COUNT(*) FROM t GROUP BY x;"
PLAN = b"EXPLAIN SELECT x FROM t;"
ROWS_TOLD = b"x\n" + b"".join(b"%d\n" % x for x in range(ROWS)) + b"-- rows 400, pages 200\n"


def entries_of(whole, number):
    """The entries of a page of the index: where each stands in the file, its address, row number and page."""
    page = whole[number * PAGE :][:PAGE]
    assert page[:1] == b"I"
    for i, ((z, row), below) in enumerate(entries_on(page)):
        yield number * PAGE + 16 + 24 * i, z, row, below


def with_entry(whole, place, entry):
    """The file with another entry at a place."""
    return replaced(whole, (place, entry_bytes(entry[:2], entry[2])))


def replaced(whole, *parts):
    """The file with other bytes at some places."""
    damaged = bytearray(whole)
    for at, value in parts:
        damaged[at : at + len(value)] = value
    return bytes(damaged)


def damages(whole):
    """Each damage: its name, the place of the entry, the new entry, and the faults that are told of all rows and of the plan."""
    root = number_at(whole, 24)
    leaves = list(entries_of(whole, root))
    for i, (place, z, number, leaf) in enumerate(leaves):
        other = leaves[1 - i][3]
        yield "page 0", place, (z, number, 0), f"BadRow page {root}", f"BadRow page {root}"
        yield "the other leaf", place, (z, number, other), f"OutOfRegion page {other}", f"OutOfRegion page {other}"
        yield "the root", place, (z, number, root), f"BadCount page {root}", f"BadCount page {root}"
        yield "a region", place, (z, number, 1), "WrongKind page 1", "WrongKind page 1"
        if i == 1:
            yield "a later key", place, (z + 1, number, leaf), f"OutOfRegion page {leaf}", f"OutOfRegion page {leaf}"
            yield "the key before", place, (0, 0, leaf), f"BadOrder page {root}", f"BadOrder page {root}"
        else:
            yield "a later key", place, (z + 1, number, leaf), f"OutOfRegion page {root}", f"OutOfRegion page {root}"
    for i, (_, _, _, leaf) in enumerate(leaves):
        entries = list(entries_of(whole, leaf))
        for k, (place, z, number, page) in enumerate(entries):
            neighbour = entries[k - 1] if k else entries[1]
            yield "page 0", place, (z, number, 0), f"BadRow page {leaf}", f"BadRow page {leaf}"
            yield "a neighbour's page", place, (z, number, neighbour[3]), f"OutOfRegion page {neighbour[3]}", None
            yield "a page of the index", place, (z, number, leaf), f"WrongKind page {leaf}", None
            yield "no page", place, (z, number, 9999), "NoPage", None
            at = f"OutOfRegion page {leaf}"
            yield "a later key", place, (z + 1, number, page), *((f"OutOfRegion page {page}", None) if k else (at, at))
            yield "a row number", place, (z, number + 1, page), *((f"OutOfRegion page {page}", None) if k else (at, at))
            if k:
                wrong = f"BadOrder page {leaf}"
                yield "the key before", place, (*neighbour[1:3], page), wrong, wrong
            if k + 1 == len(entries) and i == 0:
                yield "the next leaf's key", place, (leaves[1][1], 0, page), at, at


def nine(whole):
    """The nine damages of the table of five rows, whose root is page 4 and whose regions are on the pages 1, 2 and 3: their name, the
    file, what is told of all rows, and of the plan."""
    root = 4 * PAGE
    first = entry_bytes(ORIGIN, 4) + bytes(48)
    yield "state", replaced(whole, (5, b"\1")), "Unclean page 0", "Unclean page 0"
    yield "root 0", replaced(whole, (24, number_bytes(0))), "BadCount page 0", "BadCount page 0"
    yield "root 1", replaced(whole, (24, number_bytes(1))), "WrongKind page 1", "WrongKind page 1"
    yield "level 2", replaced(whole, (28, number_bytes(2))), "BadCount page 4", "BadCount page 4"
    one = replaced(whole, (28, number_bytes(2)), (root + 1, b"\2\0\1"), (root + 16, first))
    yield "a root that names itself", one, "BadCount page 4", "BadCount page 4"
    yield "second entry to page 1", replaced(whole, (root + 16 + 24 + 20, number_bytes(1))), "OutOfRegion page 1", None
    yield "second entry to page 9", replaced(whole, (root + 16 + 24 + 20, number_bytes(9))), "NoPage", None
    yield "cut to two pages", whole[: 2 * PAGE], "NoPage", "NoPage"
    yield "three rows in the first region", replaced(whole, (PAGE + 3, b"\3")), "BadCount page 1", None


class Tries:
    """The program, and a folder for a table file and a script."""

    def __init__(self, tried, work):
        self.tried = tried
        self.data, self.table, self.script = (os.path.join(work, name) for name in ("rows.csv", "rows.ub", "script.sql"))

    def loaded(self, text, dims):
        """The bytes of the table file of a text."""
        with open(self.data, "w") as file:
            file.write(text)
        words = [self.tried, "load", self.data, self.table, "--dims", dims, "--page-rows", "2", "--name", "t"]
        subprocess.run(words, check=True, stdout=subprocess.DEVNULL)
        with open(self.table, "rb") as file:
            return file.read()

    def told(self, whole, text):
        """What the program writes of a file and a script, its status, and what stands on standard error."""
        for path, content in ((self.table, whole), (self.script, text)):
            with open(path, "wb") as file:
                file.write(content)
        ended = subprocess.run([self.tried, "run", self.table, self.script], capture_output=True, timeout=60)
        return ended.stdout, ended.returncode, ended.stderr

    def asked(self, name, whole, rows, regions, fine):
        """Asks a file for all rows, for groups and for the plan, of which it must tell these faults, or else what is fine."""
        for text in (ALL, GROUPS, PLAN):
            fault = regions if text == PLAN else rows
            want = fine[text] if fault is None else (f"! {fault}\n".encode(), 3, b"")
            got = self.told(whole, text)
            judge(f"{name}: {text.decode()}", got == want, f"{got[0][-200:]!r}, status {got[1]}, not {want[0][-200:]!r}")


def main():
    tried = program()
    with tempfile.TemporaryDirectory() as work:
        tries = Tries(tried, work)
        whole = tries.loaded("x,m\n" + "".join(f"{x},{x}\n" for x in range(ROWS)), "1")
        groups = b"x,COUNT(*)\n" + b"".join(b"%d,1\n" % x for x in range(ROWS)) + b"-- rows 400, pages 200\n"
        fine = {ALL: (ROWS_TOLD, 0, b""), GROUPS: (groups, 0, b""), PLAN: tries.told(whole, PLAN)}
        assert b"regions 200 of 200\n" in fine[PLAN][0]
        tries.asked("nothing", whole, None, None, fine)
        for name, place, entry, rows, regions in damages(whole):
            tries.asked(f"{name} at {place}", with_entry(whole, place, entry), rows, regions, fine)
        with open(FIVE_ROWS) as file:
            whole = tries.loaded(file.read(), "2")
        fine = {PLAN: tries.told(whole, PLAN)}
        assert b"regions 3 of 3\n" in fine[PLAN][0]
        for name, damaged, rows, regions in nine(whole):
            tries.asked(name, damaged, rows, regions, fine)
    print(f"damaged_index.py: {counts['right']} right, {counts['wrong']} wrong")
    return counts["wrong"] > 0


if __name__ == "__main__":
    sys.exit(main())
