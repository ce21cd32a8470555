#!/usr/bin/env python3
"""The regions and leaves of a load beside those of the same rows put in one by one, by hand.

    tests/loads.py [ROWS [SEED [PROGRAM]]]      (default 400 rows, seed 1)

Tables of so many rows come in several orders: at random, ascending, descending, at one point, at few points, from both ends in turn;
of 1 to 4 dimensions, with 2, 3, 16 and 64 rows a page; and of no row, of one, of a full page, of one row more, and of four full pages
and one. Each is loaded, and made a second time by a header alone and an INSERT for each row. Both files must be sound (`check`), and
their region pages, in the order of their keys, the same byte for byte, and on the leaves of their indexes as many entries. In the
loaded file the regions must stand on the pages from 1 on, in that order, and the leaves behind them. The last line tells how many
tables were right and wrong; the status is 1 where one was wrong.
"""
import os
import random
import subprocess
import sys
import tempfile

from lib.pages import PAGE, entries_on, number_at
from lib.program import counts, judge, program, word

GREATEST = 2**32 - 1
NAMES = "wxyz"


def orders(rng, count, dims):
    """Each order of rows: its name, and their points."""
    yield "random", [[rng.randint(0, GREATEST) for _ in range(dims)] for _ in range(count)]
    yield "ascending", [[i] * dims for i in range(count)]
    yield "descending", [[count - i] * dims for i in range(count)]
    yield "one point", [[7] * dims for _ in range(count)]
    yield "few points", [[rng.randint(0, 2) for _ in range(dims)] for _ in range(count)]
    yield "both ends in turn", [[i if i % 2 else GREATEST - i] * dims for i in range(count)]


def cases(rng, count):
    """Each table: its name, how many dimensions and rows a page it has, and its points."""
    for dims in (1, 2, 3, 4):
        for page_rows in (2, 3, 16, 64):
            for name, points in orders(rng, count, dims):
                yield f"{name}, {dims} dimensions, {page_rows} rows a page", dims, page_rows, points
            for few in (0, 1, page_rows, page_rows + 1, 4 * page_rows + 1):
                points = [[rng.randint(0, 9) for _ in range(dims)] for _ in range(few)]
                yield f"{few} rows, {dims} dimensions, {page_rows} rows a page", dims, page_rows, points


def named(whole, level):
    """The numbers of the pages of a level of a table file's index, in the order of their keys: of the regions' at level 0."""

    def below(number, on):
        if on == level:
            return [number]
        return [it for _, page in entries_on(whole[number * PAGE :][:PAGE]) for it in below(page, on - 1)]

    return below(number_at(whole, 24), number_at(whole, 28))


def pages(whole, numbers):
    """The pages of these numbers."""
    return [whole[it * PAGE :][:PAGE] for it in numbers]


def counts_on(whole):
    """How many entries each leaf has, in the order of their keys."""
    return [len(entries_on(page)) for page in pages(whole, named(whole, 1))]


class Tables:
    """The program, and a folder for files."""

    def __init__(self, tried, work):
        self.tried, self.work = tried, work

    def made(self, name, text, options, script=None):
        """The bytes of the table that a text is loaded as, and that a script then changes, and what `check` ends with."""
        data, table, statements = (os.path.join(self.work, it) for it in ("rows.csv", f"{name}.ub", "rows.sql"))
        for path, content in ((data, text), (statements, script or "")):
            with open(path, "w") as file:
                file.write(content)
        commands = [["load", data, table, *options]] + ([["run", table, statements]] if script else [])
        for words in commands + [["check", table]]:
            ended = subprocess.run([self.tried, *words], stdout=subprocess.DEVNULL, timeout=120)
            if ended.returncode:
                return b"", ended.returncode
        with open(table, "rb") as file:
            return file.read(), 0

    def are_alike(self, dims, page_rows, points):
        """Whether a load and insertions make the same region pages, and leaves of as many entries, and the load's stand in order; else
        what is wrong."""
        options = ["--dims", str(dims), "--page-rows", str(page_rows), "--name", "t"]
        header = ",".join(NAMES[:dims]) + ",m\n"
        rows = [", ".join(map(str, [*point, i - 5])) for i, point in enumerate(points)]
        loaded, status = self.made("loaded", header + "".join(f"{row}\n" for row in rows), options)
        other, other_status = self.made("other", header, options, "".join(f"INSERT INTO t VALUES ({row});\n" for row in rows))
        if status or other_status:
            return f"status {status}, {other_status}"
        numbers, leaves = named(loaded, 0), named(loaded, 1)
        if numbers + leaves != list(range(1, len(numbers) + len(leaves) + 1)):
            return f"the loaded regions stand on {numbers[:8]}, the leaves on {leaves[:8]}"
        if pages(loaded, numbers) != pages(other, named(other, 0)):
            return "other regions"
        return "" if counts_on(loaded) == counts_on(other) else f"leaves of {counts_on(loaded)[:8]}, not {counts_on(other)[:8]}"


def main():
    count, seed = int(word(1, 400)), int(word(2, 1))
    with tempfile.TemporaryDirectory() as work:
        tables = Tables(program(3), work)
        for name, dims, page_rows, points in cases(random.Random(seed), count):
            wrong = tables.are_alike(dims, page_rows, points)
            judge(name, not wrong, wrong)
    print(f"loads.py: {counts['right']} right, {counts['wrong']} wrong")
    return counts["wrong"] > 0


if __name__ == "__main__":
    sys.exit(main())
