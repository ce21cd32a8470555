#!/usr/bin/env python3
"""Loads a large made table with one or more programs `ubq` by turns, and tells seconds of processor, memory and bytes; with --sqlite
SQLite too, with one covering index on all columns; with --pages how many pages of the index each query of the last program reads;
with --answers the seconds of processor and the memory of queries with many rows.

usage: bench/large.py [--rows N] [--rounds N] [--sqlite] [--pages] [--answers] [PROGRAM..]      (default 2000000 rows, 5 rounds)

A time is the least of the rounds, user's and system's together, in each of which every program has its turn. Pages are counted by the
calls of the system that read them (`strace`): less those of an empty script, and less the region pages, which a query tells itself.
Everything stands in memory's file system.
"""

import argparse
import os
import re
import subprocess
import sys
import tempfile
from pathlib import Path

from lib.asked import QUERIES, TENTH, programs, write_table

COLUMNS = "x, y, z, kind, amount"
LARGE = ["SELECT * FROM t;", f"SELECT * FROM t WHERE {TENTH};", "SELECT * FROM t ORDER BY x;", "SELECT x, COUNT(*), SUM(amount) FROM t GROUP BY x;"]


def processor(words, **more):
    """The seconds of processor that a command takes, and the most memory that it held, in MB."""
    child = subprocess.Popen(words, stdout=subprocess.DEVNULL, **more)
    _, status, used = os.wait4(child.pid, 0)
    if status != 0:
        sys.exit(f"large.py: status {status}: {' '.join(map(str, words))}")
    return used.ru_utime + used.ru_stime, used.ru_maxrss / 1024


def by_sqlite(data, base):
    """SQLite's table of the same rows, with an index that holds all columns."""
    base.unlink(missing_ok=True)
    orders = work_file(base.parent / "import.sql", f"""PRAGMA journal_mode=OFF; PRAGMA synchronous=OFF;
CREATE TABLE t(x INTEGER, y INTEGER, z INTEGER, kind INTEGER, amount INTEGER);
.mode csv
.import --skip 1 {data} t
CREATE INDEX i ON t({COLUMNS});
""")
    return processor(["sqlite3", str(base)], stdin=open(orders))


def work_file(path, text):
    path.write_text(text)
    return path


def reads(program, table, script):
    """How many pages a run of a script reads from the file, and the region pages that it tells."""
    done = subprocess.run(["strace", "-f", "-e", "trace=pread64", program, "run", str(table), str(script)], capture_output=True, check=True)
    told = re.search(rb", pages (\d+)", done.stdout)
    # A call reads one page, or several that follow each other.
    pages = sum(int(count) // 4096 for count in re.findall(rb"pread64\(.*= (\d+)", done.stderr))
    return pages, int(told.group(1)) if told else 0


def tell_loads(given, tried, data, work):
    least = {}
    for _ in range(given.rounds):
        for i, program in enumerate(tried):
            table = work / f"{i}.ub"
            table.unlink(missing_ok=True)
            used = processor([program, "load", str(data), str(table), "--dims", "3", "--name", "t"])
            least[i] = min(least.get(i, used), used)
        if given.sqlite:
            used = by_sqlite(data, work / "sqlite")
            least["sqlite"] = min(least.get("sqlite", used), used)
    print(f"| {given.rows:,} rows | seconds of processor | MB at the most | bytes of the file |")
    print("|---|---|---|---|")
    for name, (seconds, memory) in least.items():
        file = work / ("sqlite" if name == "sqlite" else f"{name}.ub")
        print(f"| {name if name == 'sqlite' else tried[name]} | {seconds:.2f} | {memory:.0f} | {file.stat().st_size} |")


def tell_pages(program, table, work):
    empty, _ = reads(program, table, work_file(work / "empty.sql", ""))
    print(f"\nAn empty script reads {empty} pages.\n\n| Query | region pages | pages of the index |\n|---|---|---|")
    for name, _, text in QUERIES:
        read, regions = reads(program, table, work_file(work / "script.sql", text + "\n"))
        print(f"| {name} | {regions} | {read - empty - regions} |")


def tell_answers(given, tried, work):
    print("\n| Query | program | seconds of processor | MB at the most |\n|---|---|---|---|")
    for text in LARGE:
        script = work_file(work / "script.sql", text + "\n")
        least = {}
        for _ in range(given.rounds):
            for i, program in enumerate(tried):
                used = processor([program, "run", str(work / f"{i}.ub"), str(script)])
                least[i] = min(least.get(i, used), used)
        for i, (seconds, memory) in least.items():
            print(f"| `{text}` | {tried[i]} | {seconds:.2f} | {memory:.0f} |")


def main():
    parser = argparse.ArgumentParser(description="loads a large table with programs ubq by turns")
    parser.add_argument("programs", nargs="*")
    parser.add_argument("--rows", type=int, default=2000000)
    parser.add_argument("--rounds", type=int, default=5)
    parser.add_argument("--sqlite", action="store_true")
    parser.add_argument("--pages", action="store_true")
    parser.add_argument("--answers", action="store_true")
    given = parser.parse_args()
    tried = programs(given.programs)
    with tempfile.TemporaryDirectory(dir="/dev/shm") as folder:
        work = Path(folder)
        data = work / "data.csv"
        write_table(data, given.rows)
        tell_loads(given, tried, data, work)
        if given.answers:
            tell_answers(given, tried, work)
        if given.pages:
            tell_pages(tried[-1], work / f"{len(tried) - 1}.ub", work)


if __name__ == "__main__":
    main()
