#!/usr/bin/env python3
"""Times one or more programs `ubq` by turns, in one run: loading the table of bench/table.sh, opening it, and queries on its file.

usage: bench/turns.py [--rows N] [--xs N] [--rounds N] [--only WORD] [PROGRAM..]      (default 200000 rows, 7 rounds)

Each time is the least of the rounds, in each of which every program has its turn, since what else the machine does only adds. A query's
time is that of a script which has it many times, less that of an empty script. The answers of all programs must be the same, but for the pages read.
What opening takes is the empty script's time less that of `ubq next`, which opens nothing: both are the least of 100 by turns.
With --xs the first dimension has that many values, and the queries that ask for a range of it find no row. With --only just the
queries whose names have the word are asked. Prints a table in Markdown, with a column for each program in the order given.
"""

import argparse
import hashlib
import re
import subprocess
import sys
import tempfile
import time
from pathlib import Path

from lib.asked import QUERIES, programs, spelled, write_table

# How often a process that hardly does anything has its turn.
STARTS = 100


def run(words):
    """The seconds that a command takes, and the hash of what it wrote but for the pages that it told."""
    start = time.perf_counter()
    done = subprocess.run(words, stdout=subprocess.PIPE, check=True)
    took = time.perf_counter() - start
    return took, hashlib.sha256(re.sub(rb", pages \d+", b"", done.stdout)).hexdigest()


def least_by_turns(commands, rounds, name, same_answers=True):
    """The least seconds of each command, which take turns; with `same_answers` all must write the same."""
    least = [None] * len(commands)
    hashes = set()
    for _ in range(rounds):
        for i, words in enumerate(commands):
            seconds, written = run(words() if callable(words) else words)
            hashes.add(written)
            if least[i] is None or seconds < least[i]:
                least[i] = seconds
    if same_answers and len(hashes) != 1:
        sys.exit(f"turns.py: the answers differ: {name}")
    return least


def row(name, times):
    print(f"| {name} | " + " | ".join(spelled(t) for t in times) + " |", flush=True)


def main():
    parser = argparse.ArgumentParser(description="times programs ubq by turns")
    parser.add_argument("programs", nargs="*")
    parser.add_argument("--rows", type=int, default=200000)
    parser.add_argument("--xs", type=int, default=1048576)
    parser.add_argument("--rounds", type=int, default=7)
    parser.add_argument("--only", default="")
    given = parser.parse_args()
    tried = programs(given.programs)
    with tempfile.TemporaryDirectory() as folder:
        work = Path(folder)
        data = work / "data.csv"
        write_table(data, given.rows, given.xs)
        empty = work / "empty.sql"
        empty.write_text("")
        print("| What | " + " | ".join(given.programs or ["ubq"]) + " |")
        print("|---|" + "---|" * len(tried))

        def load(i, program):
            def words():
                (work / f"{i}.ub").unlink(missing_ok=True)
                return [program, "load", str(data), str(work / f"{i}.ub"), "--dims", "3", "--name", "t"]
            return words

        row("`load`", least_by_turns([load(i, p) for i, p in enumerate(tried)], given.rounds, "load", same_answers=False))
        tries = [[p, "try", str(data), str(empty), "--dims", "3", "--name", "t"] for p in tried]
        row("`try` with an empty script", least_by_turns(tries, given.rounds, "try"))
        runs = [[p, "run", str(work / f"{i}.ub")] for i, p in enumerate(tried)]
        starts = [words + [str(empty)] for words in runs] + [[p, "next", "2,2", "6,3", "19"] for p in tried]
        least = least_by_turns(starts, STARTS, "empty", same_answers=False)
        opened, others = least[: len(tried)], least[len(tried) :]
        row("`run` with an empty script", opened)
        row("`next`", others)
        for name, times, text in QUERIES:
            if given.only not in name:
                continue
            script = work / "script.sql"
            script.write_text((text + "\n") * times)
            whole = least_by_turns([words + [str(script)] for words in runs], given.rounds, name)
            row(name, [(t - o) / times for t, o in zip(whole, opened)])


if __name__ == "__main__":
    main()
