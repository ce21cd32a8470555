#!/usr/bin/env python3
"""Proves and builds the libraries of this repository side by side, lowest first, and leaves each in its crate's `out/` for later checks.

    docs/prove_libraries.py [--lanes N] [NAME..]

Of the crates that are named, and those that they stand on, it proves what has changed (without names: of all); a program among them is
checked alone. As many at a time as there are processors, or N; each takes one. A line for each tells the seconds of processor, the memory
and the time. A check of a crate above takes these libraries as they are: `rt check` proves them one after the other where they are missing.
The order and the memory are those of `rt ci`, whose work this does without its edits, tests and runs."""

import argparse
import os
import pathlib
import shutil
import subprocess
import sys
import time

from gate_plan import library_of, library_of_rt

TOP = pathlib.Path(__file__).resolve().parent.parent


def run(words, folder, log):
    """Runs a command, and returns its status, its seconds of processor and its most memory in MB."""
    started = subprocess.Popen(words, cwd=folder, stdin=subprocess.DEVNULL, stdout=log, stderr=subprocess.STDOUT)
    _, status, used = os.wait4(started.pid, 0)
    started.returncode = os.waitstatus_to_exitcode(status)
    return started.returncode, used.ru_utime + used.ru_stime, used.ru_maxrss // 1024


def prove(rtlib, crate, log):
    """Proves a crate as `rt ci` does. A library is built without its proofs, and marked as what these sources make."""
    guard, flags = rtlib.guarded(), ["--jobs", "1"]
    if crate.is_program:
        return run([*guard, rtlib.RATTLE, "check", *crate.words(flags), *rtlib.KEPT], crate.folder, log)
    stamp, room = crate.stamp(), pathlib.Path(crate.rlib).parent
    shutil.rmtree(room, ignore_errors=True)
    room.mkdir(parents=True)
    words = [*crate.words(flags, keeps=False), "--statements", "-o", crate.rlib]
    told = run([*guard, rtlib.RATTLE, "build", *words], crate.folder, log)
    if told[0] == 0 and stamp == crate.stamp():
        (room / "stamp").write_text(stamp)
    return told


def work(rtlib, crate, given):
    """Proves a crate where that isn't done, tells of it, and returns whether it stands."""
    if any(not given[below.name, "proof"] for below in crate.below()):
        return False
    if not crate.is_program and crate.is_built():
        return True
    out, began = pathlib.Path(crate.folder) / "out", time.time()
    out.mkdir(exist_ok=True)
    with open(out / "proof.log", "w", encoding="utf-8") as log:
        status, seconds, memory = prove(rtlib, crate, log)
    told = "proved" if status == 0 else f"NOT PROVED (crates/{crate.name}/out/proof.log)"
    print(f"{crate.name}: {told}, {seconds:.0f} s of processor, {memory} MB, {time.time() - began:.0f} s", flush=True)
    return status == 0


def main():
    given = argparse.ArgumentParser(description=__doc__, formatter_class=argparse.RawDescriptionHelpFormatter)
    given.add_argument("--lanes", type=int, default=os.cpu_count())
    given.add_argument("names", nargs="*", metavar="NAME")
    asked = given.parse_args()
    rt = library_of_rt()
    os.chdir(TOP)
    rt.rtlib.guarded()
    # Else each crate's sum is reckoned once for each way that leads down to it.
    library_of(TOP / "bin" / "prove", "bin_prove").with_quick_sums(rt.rtlib)
    crates = sorted(rt.rtlib.crates_below(str(TOP)), key=lambda it: len(it.below()))
    wanted = {it.name for crate in crates if crate.name in (asked.names or [crate.name]) for it in [crate, *crate.below()]}
    os.environ["RT_JOBS"] = str(asked.lanes)
    tasks = {
        (it.name, "proof"): ([(below.name, "proof") for below in it.below()], it.count(rb"\n"), rt.need(it), lambda given, _, it=it: work(rt.rtlib, it, given))
        for it in crates
        if it.name in wanted
    }
    stands = rt.in_lanes(tasks)
    missing = [name for (name, _), is_well in stands.items() if not is_well]
    print(f"{len(stands) - len(missing)} stand" + (f"; not proved: {' '.join(missing)}" if missing else ""))
    sys.exit(bool(missing))


if __name__ == "__main__":
    main()
