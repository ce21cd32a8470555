#!/usr/bin/env python3
"""Times a program `ubq` on a table of unsigned dimensions and on the same rows in signed ones, by turns, in one run: the queries of
bench/turns.py, whose table and literals are moved by 2^31, so that both tables have the same pages.

usage: bench/signed.py [--rows N] [--rounds N] [--only WORD] [PROGRAM]      (default 200000 rows, 7 rounds)

Each time is the least of the rounds; a query's is that of a script which has it many times, less that of an empty script. The
numbers of rows and pages told must be the same. Prints a table in Markdown.
"""

import argparse
import re
import subprocess
import sys
import tempfile
import time
from pathlib import Path

from lib.asked import QUERIES, programs, spelled, write_table

SHIFT = 2**31


def moved(text):
    """The query whose literals for x, y and z are moved."""
    less = lambda digits: str(int(digits) - SHIFT)
    text = re.sub(r"\b([xyz]) BETWEEN (\d+) AND (\d+)", lambda m: f"{m[1]} BETWEEN {less(m[2])} AND {less(m[3])}", text)
    return re.sub(r"\b([xyz]) (>=|<=|<|>|=) (\d+)", lambda m: f"{m[1]} {m[2]} {less(m[3])}", text)


def timed(words):
    """The seconds of a command, and what it told of rows and pages."""
    start = time.perf_counter()
    done = subprocess.run(words, stdout=subprocess.PIPE, check=True)
    return time.perf_counter() - start, re.findall(rb"^-- .*$", done.stdout, re.M)


def least_of_both(commands, rounds, name):
    times, told = [[], []], []
    for _ in range(rounds):
        for i, words in enumerate(commands):
            seconds, lines = timed(words)
            times[i].append(seconds)
            told.append(lines)
    if any(lines != told[0] for lines in told):
        sys.exit(f"signed.py: rows or pages differ: {name}")
    return [min(each) for each in times]


def main():
    parser = argparse.ArgumentParser(description="times a program ubq on unsigned and on signed dimensions, by turns")
    parser.add_argument("program", nargs="?")
    parser.add_argument("--rows", type=int, default=200000)
    parser.add_argument("--rounds", type=int, default=7)
    parser.add_argument("--only", default="")
    given = parser.parse_args()
    (program,) = programs([given.program] if given.program else [])
    with tempfile.TemporaryDirectory() as folder:
        work = Path(folder)
        write_table(work / "0.csv", given.rows)
        header, *rows = (work / "0.csv").read_text().splitlines()
        fields = [row.split(",") for row in rows]
        lines = [",".join([*(str(int(it) - SHIFT) for it in row[:3]), *row[3:]]) for row in fields]
        (work / "1.csv").write_text("\n".join([header, *lines, ""]))
        masks = [[], ["--signed", "7"]]
        for i, mask in enumerate(masks):
            words = [program, "load", str(work / f"{i}.csv"), str(work / f"{i}.ub"), "--dims", "3", "--name", "t", *mask]
            subprocess.run(words, stdout=subprocess.DEVNULL, check=True)
        empty = work / "empty.sql"
        empty.write_text("")
        runs = [[program, "run", str(work / f"{i}.ub")] for i in range(2)]
        opened = least_of_both([words + [str(empty)] for words in runs], given.rounds, "empty")
        print("| What | unsigned | signed | times |\n|---|---|---|---|")
        for name, times, text in QUERIES:
            if given.only not in name:
                continue
            for i, query in enumerate((text, moved(text))):
                (work / f"{i}.sql").write_text((query + "\n") * times)
            whole = least_of_both([words + [str(work / f"{i}.sql")] for i, words in enumerate(runs)], given.rounds, name)
            each = [(whole[i] - opened[i]) / times for i in range(2)]
            print(f"| {name} | {spelled(each[0])} | {spelled(each[1])} | {each[1] / each[0]:.2f} |", flush=True)


if __name__ == "__main__":
    main()
