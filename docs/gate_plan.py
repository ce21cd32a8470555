#!/usr/bin/env python3
"""Tells what makes the gate wait: plays the order in which `rt ci` starts its work, with the minutes of docs/GATE.md's table and the memory
that `rt ci` plans for each crate.

    docs/gate_plan.py [GB [PROCESSORS]]

GB is the memory that is free when the gate begins; without it, what is free now. It prints the minutes of wall time, those for which
processors have nothing to do, the crates by planned memory times minutes, and from when to when what is ready waits for memory. `rt ci`
starts first what has the longest way behind it; but what needs more memory than is left waits, and what needs less goes before it.

The rule is that of the kit's `rt` (`in_lanes`), and so is each crate's memory (`need`), which it takes from there."""

import importlib.machinery
import importlib.util
import pathlib
import re
import shutil
import sys

from sizes import HEADS, crates, edits_of

TOP = pathlib.Path(__file__).resolve().parent.parent
KINDS = ("proof", "tests", "edits")
# Of the free memory `rt ci` plans with so much, and a further process of one check is counted with so much of the first one's.
PLANNED, EACH_MORE = 0.85, 0.6
# So much of a process a further one of the same check was seen to gain.
GAIN = 0.7
MOST_TOLD = 8


def library_of(file, name):
    """A program without the ending of Python's files, as a module."""
    sys.dont_write_bytecode = True
    loader = importlib.machinery.SourceFileLoader(name, str(file))
    made = importlib.util.module_from_spec(importlib.util.spec_from_loader(name, loader))
    sys.modules[name] = made
    loader.exec_module(made)
    return made


def library_of_rt():
    """The kit's `rt`, as a module."""
    return library_of(pathlib.Path(shutil.which("rt")).resolve(), "kit_rt")


def minutes_told():
    """The minutes of each crate's proof, tests and edits, by GATE's table."""
    told = {}
    for line in (TOP / "docs" / "GATE.md").read_text().splitlines():
        cells = [cell.strip() for cell in line.strip("|").split("|")]
        if len(cells) == 4 + len(HEADS) and re.fullmatch(r"`\w+`", cells[0]):
            told[cells[0].strip("`")] = [float(cell or 0) for cell in cells[1:4]]
    return told


def tasks_of(rt):
    """What is to be done: for each crate and kind what it waits for, its lines, its memory and its minutes."""
    told, tasks = minutes_told(), {}
    for crate in rt.rtlib.crates_below(str(TOP)):
        proof, tests, edits = told.get(crate.name, (0.0, 0.0, 0.0))
        count = len(edits_of(crate.name))
        if count == 1 and not edits:
            # An edit that stands alone is told with the proof.
            proof, edits = proof / 2, proof / 2
        below, lines, need = [(it.name, "proof") for it in crate.below()], crate.count(rb"\n"), rt.need(crate)
        tasks[crate.name, "proof"] = below, lines, need, proof
        tasks[crate.name, "tests"] = below, lines * bool(tests), need, tests
        both = [(crate.name, "proof"), (crate.name, "tests")]
        tasks[crate.name, "edits"] = both, lines * bool(count), need, edits * bool(count)
    return tasks


def ways_behind(tasks):
    """How many lines stand on the longest way behind each task, its own among them."""
    behind = dict.fromkeys(tasks, 0)
    for key in reversed([*tasks]):
        behind[key] += tasks[key][1]
        for it in tasks[key][0]:
            behind[it] = max(behind[it], behind[key])
    return behind


def played(tasks, memory, processors):
    """When each task begins and ends, its processes and its memory; and when processors were idle while tasks waited for memory."""
    behind, done, running, runs, waits, now = ways_behind(tasks), set(), [], [], [], 0.0
    left = sorted(tasks, key=lambda it: -behind[it])
    while left or running:
        ready = [it for it in left if done.issuperset(tasks[it][0])]
        for at, key in enumerate(ready):
            _, _, need, minutes = tasks[key]
            room, idle = memory - sum(it[3] for it in running), processors - sum(it[2] for it in running)
            if idle > 0 and (not running or need <= room):
                left.remove(key)
                spare = min(4, idle // (len(ready) - at), 1 + int((room / need - 1) / EACH_MORE))
                jobs = 1 if key[1] == "edits" else max(1, spare)
                running.append((now + minutes / (1 + GAIN * (jobs - 1)), key, jobs, need * (1 + EACH_MORE * (jobs - 1))))
                runs.append((now, *running[-1]))
        ended = min(it[0] for it in running)
        held_back = [it for it in ready if it in left and tasks[it][3]]
        waits.append((now, ended, processors - sum(it[2] for it in running), held_back))
        now, done = ended, done | {it[1] for it in running if it[0] <= ended}
        running = [it for it in running if it[0] > ended]
    return now, runs, waits


def main():
    if len(sys.argv) > 3 or any(word.startswith("-") for word in sys.argv[1:]):
        sys.exit(__doc__)
    rt = library_of_rt()
    memory = PLANNED * (float(sys.argv[1]) * 1e9 if len(sys.argv) > 1 else rt.free())
    processors = int(sys.argv[2]) if len(sys.argv) > 2 else rt.processors()
    tasks = tasks_of(rt)
    wall, _, waits = played(tasks, memory, processors)
    work = sum(it[3] for it in tasks.values())
    idle = sum((end - begin) * lanes for begin, end, lanes, _ in waits)
    print(f"{wall:.1f} minutes of wall time for {work:.1f} of work; processors have nothing to do for {idle:.1f} minutes")
    held = {name: sum(tasks[name, kind][2] * tasks[name, kind][3] for kind in KINDS) / 1e9 for name in crates()}
    print(f"memory times minutes: {sum(held.values()):.0f} GB minutes, of {memory * wall / 1e9:.0f}")
    for name in sorted(held, key=held.get, reverse=True)[:MOST_TOLD]:
        print(f"  {held[name]:4.0f}  {name} ({tasks[name, 'proof'][2] / 1e9:.1f} GB)")
    for begin, end, lanes, names in waits:
        if lanes and names and end - begin >= 0.1:
            told = ", ".join(f"{name} ({kind})" for name, kind in names[:4])
            print(f"{begin:5.1f} to {end:4.1f}: {lanes} idle, for want of memory: {told}")


if __name__ == "__main__":
    main()
