#!/usr/bin/env python3
"""Loads as many rows as there are row numbers, and one more. That one is read, and told of where it is no row, before `! Full` comes; what
stands behind it isn't; and the table file stays as it was. The full table takes no row by INSERT or `append`.

Run by hand: tests/full.py [PROGRAM]. It tells what was written where it is wrong, and how many were right and wrong.
"""
import os
import subprocess
import tempfile

from lib.program import counts, judge, program

MOST = 16777215
# All rows are one point, so that the text is short: some 34 MB.
ROWS = b"x\n" + b"1\n" * MOST
LOAD = ["load", "-", "t.ub", "--dims", "1", "--name", "t"]


def asks(tried, what, words, status, told, typed=b""):
    """Wants this status and this output."""
    ended = subprocess.run([tried, *words], input=typed, stdout=subprocess.PIPE, stderr=subprocess.DEVNULL, check=False)
    judge(what, (ended.returncode, ended.stdout.decode()) == (status, told), (ended.returncode, ended.stdout[:200]))


def main():
    tried = program()
    with tempfile.TemporaryDirectory() as work:
        os.chdir(work)
        asks(tried, "one row too many", LOAD, 3, "! Full\n", ROWS + b"1\n")
        asks(tried, "a wrong record behind it", LOAD, 3, "! Full\n", ROWS + b"1\nx\n")
        asks(tried, "one too many, which is no row", LOAD, 3, f"! BadNumber row {MOST + 1} column 1\n", ROWS + b"x\n")
        asks(tried, "one too many, which is longer", LOAD, 3, "! Csv\n", ROWS + b"1,2\n")
        judge("no table file is made", not os.path.exists("t.ub"), os.listdir("."))
        # The 65th row of a region splits it into 33 and 32. Rows of one point come last, so each split but the first takes 33 rows more.
        asks(tried, "just as many", LOAD, 0, f"-- rows {MOST}, regions {2 + (MOST - 65) // 33}\n", ROWS)
        asks(tried, "all are there", ["query", "t.ub", "SELECT COUNT(*) FROM t"], 0, f"COUNT(*)\n{MOST}\n")
        asks(tried, "INSERT", ["query", "t.ub", "INSERT INTO t VALUES (1)"], 3, "")
        with open("one.csv", "wb") as file:
            file.write(b"x\n1\n")
        asks(tried, "append", ["append", "t.ub", "one.csv"], 3, "! Full\n")
        asks(tried, "all are still there", ["query", "t.ub", "SELECT COUNT(*) FROM t"], 0, f"COUNT(*)\n{MOST}\n")
        os.chdir("/")
    print(f"full: {counts['right']} right, {counts['wrong']} wrong")


if __name__ == "__main__":
    main()
