#!/usr/bin/env python3
"""The first scan of a table file that no memory of the system holds: of one that was loaded, whose pages lie in the order of their keys, and of
one with the same rows that were put in one by one in random order, whose pages lie as the regions came.

usage: bench/cold.py [--rows N] [--rounds N] [--folder FOLDER] [PROGRAM]      (default 2000000 rows, 5 rounds, this folder)

The files stand in FOLDER, which has to be on a disk, and take 200 bytes a row together; the statements that put the rows in take 60 more
while they run. Before each scan the file is written out, and the system is told to let its pages go (`posix_fadvise`); what the disk's own
machine holds it can't tell. Told are the least and the middle of the rounds, in wall time, of a new process that counts all rows. Both files
have the same answer."""

import argparse
import os
import statistics
import subprocess
import tempfile
import time
from pathlib import Path

from lib.asked import programs, write_table

COUNT = "SELECT COUNT(*) FROM t;"


def let_go(path):
    """Has the system let the pages of a file go."""
    file = os.open(path, os.O_RDONLY)
    os.fsync(file)
    os.posix_fadvise(file, 0, 0, os.POSIX_FADV_DONTNEED)
    os.close(file)


def put_in(program, data, table, work):
    """Makes the table of a CSV file by INSERTs, in the order of its rows."""
    head, *rows = data.read_text().splitlines()
    (work / "head.csv").write_text(head + "\n")
    subprocess.run([program, "load", work / "head.csv", table, "--dims", "3"], check=True, stdout=subprocess.DEVNULL)
    inserts = work / "inserts.sql"
    inserts.write_text("".join(f"INSERT INTO t VALUES ({row});\n" for row in rows))
    subprocess.run([program, "run", table, inserts], check=True, stdout=subprocess.DEVNULL)
    inserts.unlink()


def scan(program, table, script):
    """The wall time of a first scan, and its answer."""
    let_go(table)
    began = time.perf_counter()
    told = subprocess.run([program, "run", table, script], check=True, capture_output=True).stdout
    return time.perf_counter() - began, told


def main():
    parser = argparse.ArgumentParser(description=__doc__, formatter_class=argparse.RawDescriptionHelpFormatter)
    parser.add_argument("--rows", type=int, default=2000000)
    parser.add_argument("--rounds", type=int, default=5)
    parser.add_argument("--folder", default=".")
    parser.add_argument("program", nargs="*")
    given = parser.parse_args()
    program = programs(given.program)[-1]
    with tempfile.TemporaryDirectory(dir=given.folder) as folder:
        work = Path(folder)
        data, script = work / "data.csv", work / "count.sql"
        write_table(data, given.rows)
        script.write_text(COUNT)
        tables = {"loaded": work / "loaded.ub", "put in one by one": work / "put.ub"}
        subprocess.run([program, "load", data, tables["loaded"], "--dims", "3"], check=True, stdout=subprocess.DEVNULL)
        put_in(program, data, tables["put in one by one"], work)
        times, answers = {name: [] for name in tables}, set()
        for _ in range(given.rounds):
            for name, table in tables.items():
                took, told = scan(program, table, script)
                times[name].append(took)
                answers.add(told.splitlines()[1])
        assert len(answers) == 1, answers
        for name, took in times.items():
            print(f"{name}: {min(took):.3f} s at the least, {statistics.median(took):.3f} in the middle, {tables[name].stat().st_size} bytes")
        least = [min(took) for took in times.values()]
        print(f"loaded, of the other: {least[0] / least[1]:.2f}")


if __name__ == "__main__":
    main()
