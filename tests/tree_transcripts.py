#!/usr/bin/env python3
"""Wrong lines in the text of `tree_transcripts` are seen: with each answer changed, every line that says one is told, and no other.

    tests/tree_transcripts.py [PROGRAM]

PROGRAM is crates/tree_transcripts/out/tree_transcripts where none is named. The text is played as it stands, which must be right; then
with every answer changed at once, with every number of calls changed in each block by itself, and with every hurt byte left as it is. Its
part 'Trials' must be the one that tests/lib/tree_trial.py writes; `--trials` looks at that alone, and needs no program."""

import pathlib
import re
import subprocess
import sys

from lib import tree_trial

TOP = pathlib.Path(__file__).resolve().parent.parent
CRATE = TOP / "crates/tree_transcripts"
PROGRAM = sys.argv[1] if len(sys.argv) > 1 else str(CRATE / "out/tree_transcripts")
TEXT = (CRATE / "stdin").read_text()
LINES = TEXT.split("\n")


def play(lines):
    """The numbers of the lines that are told, what is printed last, and the status."""
    ended = subprocess.run([PROGRAM], input="\n".join(lines), capture_output=True, text=True)
    told = [int(number) for number in re.findall(r"^(\d+): ", ended.stdout, re.M)]
    return told, ended.stdout.rstrip().split("\n")[-1], ended.returncode


def blocks(lines):
    """The first line and the last of each block of calls."""
    start = None
    for n, line in enumerate(lines):
        if line.startswith("calls "):
            start = n
        elif line == "end":
            yield start, n


def changed_answers():
    """Each answer is another one: each hurt, and each line in no block, is told; of a block its end."""
    inside = {n for start, end in blocks(LINES) for n in range(start, end + 1)}
    lines, wanted = [], []
    for n, line in enumerate(LINES):
        if " -> " in line and not line.startswith("#"):
            line = line.replace(" -> ", " -> not ", 1)
            if n not in inside:
                hurts = line.split(" -> ")[0].count(";") + 1 if line.startswith("hurt") else 1
                wanted += [n + 1] * hurts
        elif line == "end":
            wanted.append(n + 1)
        lines.append(line)
    return play(lines), sorted(wanted)


def changed_calls(place):
    """In each block one number of one line is another: the first, the second or the third."""
    lines, wanted, count = list(LINES), [], 0
    for start, end in blocks(LINES):
        own = [n for n in range(start + 1, end) if " | " in LINES[n] and not LINES[n].startswith("#")]
        n = own[count % len(own)]
        numbers = LINES[n].split(" | ")[1].split()
        numbers[place] = str(int(numbers[place]) + 1)
        lines[n] = LINES[n].split(" | ")[0] + " | " + " ".join(numbers)
        wanted.append(end + 1)
        count += 1
    return play(lines), wanted


def unhurt():
    """No byte is hurt: each line of hurts is told that says something else than that all is well."""
    lines, wanted = [], []
    for n, line in enumerate(LINES):
        if line.startswith("hurt") and not line.endswith(" -> ok") and not after_nothing(n):
            told = line.split(" -> ")[1]
            lines.append(f"hurt -> {told}")
            wanted.append(n + 1)
        else:
            lines.append(line)
    return play(lines), wanted


def after_nothing(n):
    """Whether the hurts of this line are those of a table of no pages."""
    above = [line for line in LINES[:n] if line.startswith(("upgrades ", "checks "))]
    return above[-1].startswith("upgrades nothing ")


def trials_stand():
    """Whether the text ends in the trials that are written anew."""
    stand = TEXT.endswith("\n\n" + tree_trial.text())
    print(f"the trials {'stand there' if stand else 'are others: cd tests && python3 -m lib.tree_trial'}")
    return stand


def main():
    stand = trials_stand()
    if PROGRAM == "--trials":
        return 0 if stand else 1
    told, last, status = play(LINES)
    wrong = 0 if stand else 1
    if told or status or last + "\n" != (CRATE / "stdout").read_text():
        print(f"the text as it stands: {told}, {last}, status {status}")
        wrong += 1
    trials = [("answers", changed_answers()), ("unhurt", unhurt())]
    trials += [(f"calls, number {place}", changed_calls(place)) for place in range(3)]
    for name, ((told, last, status), wanted) in trials:
        if sorted(told) != wanted or status != 1:
            missing, other = sorted(set(wanted) - set(told)), sorted(set(told) - set(wanted))
            print(f"{name}: not told {missing}, told {other}, status {status}")
            wrong += 1
        else:
            print(f"{name}: {len(wanted)} wrong lines told")
    print(f"{len(trials) + 2 - wrong} right, {wrong} wrong")
    return 1 if wrong else 0


if __name__ == "__main__":
    sys.exit(main())
