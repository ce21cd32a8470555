#!/usr/bin/env python3
"""Runs the gate, and tells what docs/GATE.md has of it: the minutes of processor of each crate's proof, tests and edits with the
crate's sizes, the dearest edits, and how much of the processors the host took back.

    docs/gate_times.py LOG      in a clean clone; what `rt ci` prints goes to LOG

It looks every second at the processes that `rt ci` starts, so what runs for less than a second can be missed. First it checks the kit's
empty crate, whose seconds say how quick the machine is; before and after the gate `bench/quiet.py` says how much of a core a processor gives."""

import collections
import os
import pathlib
import re
import subprocess
import sys
import tempfile
import time

from sizes import HEADS, crates, edits_of, size

TOP = pathlib.Path(__file__).resolve().parent.parent
TICK = os.sysconf("SC_CLK_TCK")
# A check of a crate's edits, by the folder of its kept work. Where `rt ci` has one folder for all edits of a crate, they are
# tried in turn; where each has one of its own, the folder is named by the edit's number.
OF_EDITS = re.compile(r"/rt-edits-[^/]*(?:/(\w+))?$")
KINDS = ("proof", "tests", "edits")
# So many of the dearest edits are told.
MOST_TOLD = 40


def processors():
    """The times that all processors have spent so far, in user, system, idle and stolen ticks."""
    words = [int(word) for word in pathlib.Path("/proc/stat").read_text().split("\n")[0].split()[1:9]]
    return words[0] + words[1], words[2], words[3] + words[4], words[7]


def pace():
    """The seconds of processor that a check of the kit's empty crate takes from nothing."""
    with tempfile.TemporaryDirectory() as folder:
        subprocess.run(["git", "init", "-q"], cwd=folder, check=True)
        subprocess.run(["rt", "new", "empty", "start_lib"], cwd=folder, check=True, capture_output=True)
        before = os.times()
        subprocess.run(["rt", "check", "--jobs", "1"], cwd=f"{folder}/empty", check=True, capture_output=True)
        after = os.times()
    return after.children_user + after.children_system - before.children_user - before.children_system


def quietness():
    """What `bench/quiet.py` says of all processors, where there is a compiler for it."""
    told = subprocess.run([TOP / "bench" / "quiet.py", "10"], capture_output=True, text=True, check=False).stdout.splitlines()
    return told[-1] if told else "no C compiler: not said how quiet the cores are"


def what_runs(pid):
    """The crate, the kind of work, and the number of the edit that a process is for, if it is one of the prover's."""
    words = pathlib.Path(f"/proc/{pid}/cmdline").read_text(errors="replace").split("\0")
    if "--crate-name" not in words:
        return None
    crate = words[words.index("--crate-name") + 1]
    kept = words[words.index("--incremental") + 1] if "--incremental" in words else ""
    of_edits = OF_EDITS.search(kept)
    if of_edits:
        return crate, "edits", of_edits[1]
    return crate, "tests" if "--test" in words else "proof", ""


def ticks_of(pid):
    """When a process began, and what it has used."""
    words = pathlib.Path(f"/proc/{pid}/stat").read_text().rsplit(")", 1)[1].split()
    return words[19], int(words[11]) + int(words[12])


class Sampler:
    """Adds up what the prover's processes use."""

    def __init__(self):
        self.seen, self.used, self.begun = {}, collections.Counter(), collections.Counter()

    def numbered(self, work):
        """The same work, with the number of an edit that is known by its turn alone."""
        if not work or work[1:] != ("edits", None):
            return work
        self.begun[work[0]] += 1
        return work[0], "edits", str(self.begun[work[0]] - 1)

    def sample(self):
        for pid in filter(str.isdigit, os.listdir("/proc")):
            try:
                began, ticks = ticks_of(pid)
                key = pid, began
                if key not in self.seen:
                    self.seen[key] = self.numbered(what_runs(pid)), 0
                work, before = self.seen[key]
            except (OSError, ValueError, IndexError):
                continue
            if work:
                self.used[work] += (ticks - before) / TICK
                self.seen[key] = work, ticks


def tell(used, wall, before, after):
    """Prints the table, the dearest edits and what the processors did."""
    minutes = collections.Counter()
    for (crate, kind, _), seconds in used.items():
        minutes[crate, kind] += seconds / 60
    heads = ("Crate", "Proof", "Tests", "Edits, tried", *HEADS)
    print(f"| {' | '.join(heads)} |\n|{'---|' * len(heads)}")
    for crate in crates():
        cells = [f"{minutes[crate, kind]:.1f}" if minutes[crate, kind] >= 0.05 else "" for kind in KINDS]
        print(f"| `{crate}` | {' | '.join(cells)} | {' | '.join(map(str, size(crate)))} |")
    sums = [sum(it for (_, kind), it in minutes.items() if kind == wanted) for wanted in KINDS]
    print("\nIn sum, in minutes: " + ", ".join(f"{kind} {it:.1f}" for kind, it in zip(KINDS, sums)))
    dearest = sorted(((s, c, n) for (c, kind, n), s in used.items() if kind == "edits" and n.isdigit()), reverse=True)
    for seconds, crate, number in dearest[:MOST_TOLD]:
        # After the last edit the crate itself is checked once more.
        name = dict(enumerate(edits_of(crate))).get(int(number), "(the crate itself)")
        print(f"  {seconds:5.0f} s {crate}/{name}")
    spent = [after[at] - before[at] for at in range(4)]
    shares = [f"{name} {100 * it / sum(spent):.1f} %" for name, it in zip(("user", "system", "idle", "stolen"), spent)]
    print(f"\nwall {wall // 60:.0f}:{wall % 60:02.0f}; of {os.cpu_count()} processors: " + ", ".join(shares))


def main():
    if len(sys.argv) != 2 or sys.argv[1].startswith("-"):
        sys.exit(__doc__)
    print(f"the kit's empty crate: {pace():.1f} s of processor\n{quietness()}", flush=True)
    sampler, began, before = Sampler(), time.time(), processors()
    with open(sys.argv[1], "w", encoding="utf-8") as log:
        gate = subprocess.Popen(["bash", ".ci/run"], cwd=TOP, stdin=subprocess.DEVNULL, stdout=log, stderr=subprocess.STDOUT)
        while gate.poll() is None:
            sampler.sample()
            time.sleep(1)
    wall, after = time.time() - began, processors()
    tell(sampler.used, wall, before, after)
    print(quietness())
    times = os.times()
    print(f"user and system of the gate: {(times.children_user + times.children_system) / 60:.0f} minutes; its status: {gate.returncode}")
    sys.exit(gate.returncode)


main()
