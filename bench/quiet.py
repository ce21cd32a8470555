#!/usr/bin/env python3
"""How much of a core each processor gives: what two threads of a core, or another machine on it, leave of one.

    bench/quiet.py [ROUNDS]     (20 rounds where none are named, a quarter of a second each and processor)

It takes a chain of multiplications, each of which waits for the one before, three cycles each: so it tells how quick a cycle is, whatever else
the core does. Then it takes additions that don't wait for each other, of which a core with four adders, as Intel's since 2015, does four a
cycle, and fewer where another thread takes its part. Only the processor's own time counts, so work of this machine that takes
turns with it changes nothing, and what runs beside it on the same core does. Started with nothing else running, it says whether the cores are
quiet; the figures of two machines compare where their cores are alike. It needs a C compiler."""

import ctypes
import os
import pathlib
import statistics
import subprocess
import sys
import tempfile
import time

# So many additions a cycle a core with four adders does.
WHOLE = 4
ROUNDS = 20

CODE = r"""
#include <time.h>
static double seconds(void) {
    struct timespec t;
    clock_gettime(CLOCK_THREAD_CPUTIME_ID, &t);
    return t.tv_sec + t.tv_nsec * 1e-9;
}
#define EACH "add $1,%0\nadd $1,%1\nadd $1,%2\nadd $1,%3\nadd $1,%4\nadd $1,%5\nadd $1,%6\nadd $1,%7\n"
double part(void) {
    unsigned long a = 3, b = 5, c = 7, d = 9, e = 11, f = 13, g = 15, h = 17;
    double start = seconds();
    for (long i = 0; i < 4000000; i++)
        __asm__ volatile("imul %0,%0" : "+r"(a));
    double cycle = (seconds() - start) / 12e6;
    start = seconds();
    for (long i = 0; i < 1000000; i++)
        __asm__ volatile(EACH EACH EACH EACH EACH EACH EACH EACH
                         : "+r"(a), "+r"(b), "+r"(c), "+r"(d), "+r"(e), "+r"(f), "+r"(g), "+r"(h));
    return 64e6 * cycle / (seconds() - start);
}
"""


def library(folder):
    """The loops, compiled."""
    source, made = pathlib.Path(folder, "part.c"), pathlib.Path(folder, "part.so")
    source.write_text(CODE)
    subprocess.run(["cc", "-O1", "-shared", "-fPIC", "-o", made, source], check=True)
    loops = ctypes.CDLL(str(made))
    loops.part.restype = ctypes.c_double
    return loops


def parts(rounds):
    """The parts of a core that each processor gave, by its number."""
    found = {number: [] for number in sorted(os.sched_getaffinity(0))}
    with tempfile.TemporaryDirectory() as folder:
        loops = library(folder)
        for _ in range(rounds):
            for number, given in found.items():
                os.sched_setaffinity(0, {number})
                given.append(loops.part() / WHOLE)
                time.sleep(0.2)
    return found


def main():
    found = parts(int(sys.argv[1]) if len(sys.argv) > 1 else ROUNDS)
    for number, given in found.items():
        print(f"processor {number}: {min(given):.2f} to {max(given):.2f} of a core, {statistics.median(given):.2f} in the middle")
    everything = [part for given in found.values() for part in given]
    print(f"all: {statistics.median(everything):.2f} of a core in the middle, in {len(everything)} samples")


if __name__ == "__main__":
    main()
