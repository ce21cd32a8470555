#!/usr/bin/env python3
"""What keeping a table by a journal costs: two programs by turns, one that writes the table in place and one that keeps it, or any two.

usage: bench/keeping.py [--rounds N] OLD NEW      (default 5 rounds; needs the program strace)

A table of 200,000 random rows of three dimensions and two measures is put in by `load`; then scripts of 1, 10,000 and 100,000 INSERTs run on
copies of it, a script that asks once, and a load where no table stands. Each line has the least of the rounds' times of OLD and of NEW in
milliseconds, without the time inside fsync (by `strace`, which traces nothing else), their ratio, how many calls of fsync each makes, and the
most memory of each in MB. Last comes the query alone, each program started 500 times by turns with no `strace`: the least, the middle one, and
how much more NEW takes. Keep the machine quiet.

Before each run memory is touched and given back: on a virtual machine whose host takes free memory away, what is new to the machine costs much
more than what was used a moment ago, so that a program would be timed by what ran before it.
"""
import argparse
import os
import re
import resource
import shutil
import subprocess
import tempfile
import time

from lib.asked import csv_of, programs, random_rows

# So many bytes are touched: more than a run takes, with the files that it makes in memory.
TOUCHED = 512 << 20

# How often each program is started for the query alone.
STARTS = 500
QUERY = "SELECT COUNT(*) FROM t WHERE x < 1000000;"


def inserts(count):
    """A script of so many INSERTs."""
    return "".join(f"INSERT INTO t VALUES ({', '.join(map(str, row))});\n" for row in random_rows(count, 2))


def touch_memory():
    """Touches memory, and gives it back."""
    held = bytearray(TOUCHED)
    for at in range(0, TOUCHED, 4096):
        held[at] = 1


def timed(words, work, text=None):
    """The milliseconds of a run without those inside fsync, and how often that was called."""
    trace = os.path.join(work, "trace")
    begun = time.monotonic()
    told = ["strace", "-f", "--seccomp-bpf", "-qq", "-T", "-o", trace, "-e", "trace=fsync", *words]
    with open(os.devnull, "w") as nowhere:
        ran = subprocess.run(told, cwd=work, input=text, stdout=nowhere, stderr=subprocess.PIPE, text=True)
    whole = time.monotonic() - begun
    assert ran.returncode == 0, (words, ran.stderr)
    synced = [float(seconds) for seconds in re.findall(r"<([0-9.]+)>$", open(trace).read(), re.M)]
    return (whole - sum(synced)) * 1000, len(synced)


def memory(words, work, text=None):
    """The most memory of a run in MB."""
    pid = os.fork()
    if pid == 0:
        with open(os.devnull, "w") as nowhere:
            status = subprocess.run(words, cwd=work, input=text, stdout=nowhere, text=True).returncode
        used = resource.getrusage(resource.RUSAGE_CHILDREN).ru_maxrss
        with open(os.path.join(work, "used"), "w") as to:
            to.write(str(used))
        os._exit(status)
    assert os.waitpid(pid, 0)[1] == 0
    with open(os.path.join(work, "used")) as told:
        return int(told.read()) / 1024


def tell_starts(old, new, words, work):
    """Prints the least and the middle of the milliseconds of a command that hardly does anything, by turns, and what NEW takes more."""
    took = {old: [], new: []}
    for _ in range(STARTS):
        for program in took:
            begun = time.perf_counter()
            subprocess.run([program, *words], cwd=work, check=True, stdout=subprocess.DEVNULL)
            took[program].append((time.perf_counter() - begun) * 1000)
    for name, choice in (("least", min), ("middle", lambda times: sorted(times)[len(times) // 2])):
        before, after = choice(took[old]), choice(took[new])
        print(f"one query alone, {name} of {STARTS}: {before:.3f}, {after:.3f}, {after - before:.3f} more", flush=True)


def main():
    parser = argparse.ArgumentParser(description="times what keeping a table by a journal costs")
    parser.add_argument("old")
    parser.add_argument("new")
    parser.add_argument("--rounds", type=int, default=5)
    given = parser.parse_args()
    (old, new), rounds = programs([given.old, given.new]), given.rounds
    with tempfile.TemporaryDirectory(dir=os.getcwd()) as work:
        data = os.path.join(work, "rows.csv")
        with open(data, "w") as to:
            to.write(csv_of(random_rows(200_000, 1)))
        subprocess.run([new, "load", data, "full.ub", "--dims", "3"], cwd=work, check=True, stdout=subprocess.DEVNULL)
        kinds = [(f"{count} INSERTs", ["run", "t.ub", "-"], inserts(count)) for count in (1, 10_000, 100_000)]
        kinds.append(("one query", ["run", "full.ub", "-"], QUERY))
        kinds.append(("a load", ["load", data, "made.ub", "--dims", "3"], None))
        print("what, ms of OLD, ms of NEW, ratio, fsyncs of OLD, of NEW, MB of OLD, of NEW")
        for name, words, text in kinds:
            least, syncs, held = {}, {}, {}
            for turn in range(rounds + 1):
                for program in (old, new):
                    shutil.copyfile(os.path.join(work, "full.ub"), os.path.join(work, "t.ub"))
                    os.sync()
                    for left in ("made.ub", "made.ub-journal"):
                        if os.path.exists(os.path.join(work, left)):
                            os.remove(os.path.join(work, left))
                    if turn == rounds:
                        held[program] = memory([program, *words], work, text)
                        continue
                    touch_memory()
                    took, syncs[program] = timed([program, *words], work, text)
                    least[program] = min(took, least.get(program, took))
            ratio = least[new] / least[old]
            times = f"{least[old]:.2f}, {least[new]:.2f}, {ratio:.2f}"
            print(f"{name}, {times}, {syncs[old]}, {syncs[new]}, {held[old]:.1f}, {held[new]:.1f}", flush=True)
        with open(os.path.join(work, "query.sql"), "w") as to:
            to.write(QUERY)
        tell_starts(old, new, ["run", "full.ub", "query.sql"], work)


if __name__ == "__main__":
    main()
