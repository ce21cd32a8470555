#!/usr/bin/env python3
"""Counts the instructions that programs `ubq` execute for a load, for the queries of bench/turns.py, and for changes, by valgrind's
callgrind: what else the machine does changes nothing of them, so that small differences can be told where times can't.

usage: bench/instructions.py [--rows N] [PROGRAM..]      (default 200000 rows; needs the program valgrind)

A query's or a change's count is that of a script which has it once, less that of an empty script. Each program asks a table file that
it loaded itself, and changes a new copy of that. Prints a table in Markdown, in millions, with a column for each program in the order
given, and how the last one stands to the first.
"""

import argparse
import re
import shutil
import subprocess
import tempfile
from pathlib import Path

from lib.asked import QUERIES, TWENTIETH, programs, write_table

# So many rows are put in, each by a statement of its own: those that follow the table's in the same sequence.
INSERTS = 5000


def instructions(words, work):
    """How many instructions a command executes."""
    told = work / "told"
    subprocess.run(
        ["valgrind", "--tool=callgrind", "--callgrind-out-file=/dev/null", f"--log-file={told}", *words],
        stdout=subprocess.DEVNULL,
        check=True,
    )
    return int(re.search(r"Collected : (\d+)", told.read_text())[1])


def main():
    parser = argparse.ArgumentParser(usage=__doc__.split("\n\n")[1].removeprefix("usage: "))
    parser.add_argument("programs", nargs="*")
    parser.add_argument("--rows", type=int, default=200000)
    given = parser.parse_args()
    tried = programs(given.programs)
    with tempfile.TemporaryDirectory() as folder:
        work = Path(folder)
        data, script, copy = work / "data.csv", work / "script.sql", work / "copy.ub"
        write_table(data, given.rows + INSERTS)
        lines = data.read_text().splitlines(keepends=True)
        data.write_text("".join(lines[: given.rows + 1]))
        inserts = "".join(f"INSERT INTO t VALUES ({line.strip()});\n" for line in lines[given.rows + 1 :])
        tables = [work / f"{i}.ub" for i in range(len(tried))]

        def loads():
            words = ["--dims", "3", "--name", "t"]
            return [instructions([program, "load", str(data), str(table), *words], work) for program, table in zip(tried, tables)]

        def counts(text):
            script.write_text(text)
            found = []
            for program, table in zip(tried, tables):
                shutil.copyfile(table, copy)
                found.append(instructions([program, "run", str(copy), str(script)], work))
            return found

        def tell(name, own):
            print(f"| {name} | " + " | ".join(f"{count / 1e6:.2f}" for count in own) + f" | {own[-1] / own[0]:.3f} |", flush=True)

        print("| What | " + " | ".join(f"`{program}`" for program in given.programs or ["ubq"]) + " | last to first |")
        print("|---" * (len(tried) + 2) + "|")
        tell(f"loading {given.rows} rows", loads())
        empty = counts("")
        changes = [(f"{INSERTS} INSERTs", inserts), ("DELETE of a twentieth", f"DELETE FROM t WHERE {TWENTIETH};")]
        for name, text in [(name, query) for name, _, query in QUERIES] + changes:
            tell(name, [count - less for count, less in zip(counts(text + "\n"), empty)])


if __name__ == "__main__":
    main()
