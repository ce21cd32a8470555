#!/usr/bin/env python3
"""What a query that reads every page takes over several files of the same rows, loaded one after the other: its time depends on which pages of
memory a file gets. Beside it SQLite with one covering index, whose file is made anew as often.

usage: bench/files.py [--rows N] [--files N] [--rounds N] [PROGRAM..]      (default 200000 rows, 15 files, 5 rounds)

A time is that of a session which asks SUM(amount) ten times, less that of one which asks nothing, each the least of the rounds, in each of which
every program has its turn. Told are the least, the middle and the greatest of the files, and what each is of SQLite's middle one."""

import argparse
import statistics
import subprocess
import tempfile
import time
from pathlib import Path

from lib.asked import programs, spelled, write_table

TIMES = 10
SUM = "SELECT SUM(amount) FROM t;\n"
IMPORT = """PRAGMA journal_mode = OFF;
CREATE TABLE t(x INTEGER, y INTEGER, z INTEGER, kind INTEGER, amount INTEGER);
.mode csv
.import --skip 1 {} t
CREATE INDEX all_of ON t(x, y, z, kind, amount);
"""
CACHE = "PRAGMA cache_size = -262144;\n"


def took(words, text=""):
    start = time.perf_counter()
    subprocess.run(words, input=text.encode(), stdout=subprocess.DEVNULL, check=True)
    return time.perf_counter() - start


def least(commands, rounds):
    """The least seconds of each command, which take turns."""
    times = [[took(*command) for command in commands] for _ in range(rounds)]
    return [min(column) for column in zip(*times)]


def make(program, work, data, n):
    """A new file of the rows, and the commands that ask it ten times, and nothing."""
    file = work / f"{n}-{Path(program).name}"
    if program == "sqlite3":
        took(["sqlite3", str(file)], IMPORT.format(data))
        return [(["sqlite3", str(file)], CACHE + SUM * times) for times in (TIMES, 0)]
    took([program, "load", str(data), str(file), "--dims", "3", "--name", "t"])
    scripts = [work / "ten.sql", work / "none.sql"]
    return [([program, "run", str(file), str(script)],) for script in scripts]


def main():
    parser = argparse.ArgumentParser(description="times a query over files of the same rows")
    parser.add_argument("programs", nargs="*")
    parser.add_argument("--rows", type=int, default=200000)
    parser.add_argument("--files", type=int, default=15)
    parser.add_argument("--rounds", type=int, default=5)
    given = parser.parse_args()
    asked = [*programs(given.programs), "sqlite3"]
    seconds = [[] for _ in asked]
    with tempfile.TemporaryDirectory() as folder:
        work = Path(folder)
        data = work / "data.csv"
        write_table(data, given.rows)
        (work / "ten.sql").write_text(SUM * TIMES)
        (work / "none.sql").write_text("")
        for n in range(given.files):
            commands = [command for i, program in enumerate(asked) for command in make(program, work, data, f"{n}-{i}")]
            times = least(commands, given.rounds)
            for i, column in enumerate(seconds):
                column.append((times[2 * i] - times[2 * i + 1]) / TIMES)
    of_sqlite = statistics.median(seconds[-1])
    print(f"| SUM(amount), {given.files} files | least | middle | greatest |")
    print("|---|---|---|---|")
    for name, column in zip([*(given.programs or ["ubq"]), "SQLite, covering index"], seconds):
        told = [f"{spelled(it)}: {it / of_sqlite:.3f}" for it in (min(column), statistics.median(column), max(column))]
        print(f"| {name} | " + " | ".join(told) + " |", flush=True)


if __name__ == "__main__":
    main()
