#!/usr/bin/env python3
"""What `append` takes beside a `run` of the same rows as INSERTs, by turns, on copies of one table.

usage: bench/appending.py [--rounds N] [PROGRAM]      (default 3 rounds)

100,000 random rows of three dimensions and two measures are put into a table of 200,000, and 200,000 into one of 2,000,000. Each line has
the least of the rounds' times of both in seconds, and their ratio. Both tables must answer a query of all rows with the same text. It takes
some 500 MB of disk, in the folder where it is run, and as much memory.
"""
import argparse
import hashlib
import os
import shutil
import subprocess
import sys
import tempfile
import time

from lib.asked import csv_of, programs, random_rows

# How many rows are put into a table of how many.
CASES = [(100_000, 200_000), (200_000, 2_000_000)]


def timed(words, work):
    begun = time.perf_counter()
    subprocess.run(words, cwd=work, check=True, stdout=subprocess.DEVNULL)
    return time.perf_counter() - begun


def rows_of(program, table, work):
    """The sum of the text that a query of all rows of a table writes."""
    words = [program, "query", table, "SELECT * FROM t"]
    text = subprocess.run(words, cwd=work, check=True, stdout=subprocess.PIPE, stderr=subprocess.DEVNULL).stdout
    return hashlib.sha256(text).digest()


def main():
    parser = argparse.ArgumentParser(description="times append beside INSERTs of the same rows")
    parser.add_argument("program", nargs="?")
    parser.add_argument("--rounds", type=int, default=3)
    given = parser.parse_args()
    (program,) = programs([given.program] if given.program else [])
    print("rows, into a table of, s of append, s of INSERTs, ratio")
    for count, before in CASES:
        with tempfile.TemporaryDirectory(dir=os.getcwd()) as work:
            path = lambda name: os.path.join(work, name)
            with open(path("rows.csv"), "w") as to:
                to.write(csv_of(random_rows(before, 1)))
            more = random_rows(count, 2)
            with open(path("more.csv"), "w") as to:
                to.write(csv_of(more))
            with open(path("more.sql"), "w") as to:
                to.writelines(f"INSERT INTO t VALUES ({','.join(map(str, row))});\n" for row in more)
            timed([program, "load", "rows.csv", "full.ub", "--dims", "3"], work)
            kinds = {"append": ["append", "append.ub", "more.csv"], "run": ["run", "run.ub", "more.sql"]}
            least = dict.fromkeys(kinds, float("inf"))
            for _ in range(given.rounds):
                for kind, words in kinds.items():
                    shutil.copyfile(path("full.ub"), path(f"{kind}.ub"))
                    os.sync()
                    least[kind] = min(least[kind], timed([program, *words], work))
            if rows_of(program, "append.ub", work) != rows_of(program, "run.ub", work):
                sys.exit("appending.py: the two tables differ")
            print(f"{count}, {before}, {least['append']:.2f}, {least['run']:.2f}, {least['append'] / least['run']:.2f}", flush=True)


if __name__ == "__main__":
    main()
