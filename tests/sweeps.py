#!/usr/bin/env python3
"""Compares the pages and rows that the program tells of small random tables and queries with a model that is written apart from it: that
of tests/lib/regions.py, into whose regions the rows are put, and which finds by halving the space which of them a sweep comes to. The queries
are those of tests/lib/queries.py, half of them with GROUP BY.

Run by hand: tests/sweeps.py [HOW MANY [SEED [PROGRAM]]]. It prints how many were right and wrong. With `--deep` as a word the tables have
26,000 rows, two of them to a page, so that their indexes have three levels, and many regions begin with one address: of these some ten are
tried, at some seconds each. With `--transcript` as the first word it prints the tables and queries, and what they must write, as a transcript
for crates/transcripts, as tests/changes.py does.
"""
import sys

from lib.program import ends_so, print_line, try_cases
from lib.queries import query_of_groups, query_of_rows, random_row, small_shape
from lib.regions import Table


# So many rows, two of them to a page, have some 17,000 regions; an index of two levels has place for 170 leaves of 170 at most, and for
# 14,620 regions where each leaf has 86.
DEEP_ROWS = 26000


def example(rng, counts, is_deep=False):
    """A command line of a query: its words, the texts that it reads, what it must write, and its status."""
    dims = rng.randint(1, 3)
    rows = [random_row(rng, dims) for _ in range(DEEP_ROWS if is_deep else rng.randint(0, 14))]
    shape = small_shape(dims, 2 if is_deep else rng.randint(2, 4))
    kind = rng.choice([query_of_rows, query_of_groups])
    counts[kind.__name__] += 1
    statement, lines = kind(rng, shape)
    told = "\n".join(lines(rows, Table(shape, rows).regions)) + "\n"
    return f"try data.csv script.sql {shape.words()}", {"data.csv": shape.text(rows), "script.sql": statement}, told, 0


def cases(count, rng, counts):
    return (example(rng, counts) for _ in range(count))


def deep_cases(count, rng, counts):
    return (example(rng, counts, is_deep=True) for _ in range(count))


def print_transcript(count, rng, counts):
    for line in cases(count, rng, counts):
        print_line(line)


if __name__ == "__main__":
    is_deep = "--deep" in sys.argv
    if is_deep:
        sys.argv.remove("--deep")
    sys.exit(try_cases("sweeps.py", deep_cases if is_deep else cases, ends_so, print_transcript))
