#!/usr/bin/env python3
"""Makes each allocation of one run of `tree_transcripts` fail in turn, by hand: random changes of a tree, its checks, its closing and opening.

A run that was refused one ends with status 1. It tells at most one line that was answered otherwise, or that others were too, since a change
wasn't made, or nothing was opened. Then the text is played once more, with the line that was refused twice, and what it was answered behind
the first: the same allocation fails there, and all else must be answered as the text says. So the tree is as it was, and does the second
time what it was asked. The last line tells how many runs did what; the status is 1 where one was wrong.

    tests/tree_allocations.py [PROGRAM]      (needs cc; by default the one that `rt ci` or `rt check` built in crates/tree_transcripts)
"""
import os
import re
import sys
import tempfile

from lib import failing_memory, tree_trial
from lib.program import TOP, word

ROUND = 40  # so many runs that did without the allocation, one after the other, end the trial
LENGTH = 1 << 16  # of each text, so that it is read with as many allocations
# The table of no rows, of 'Tables' in the text of the gate; and a line that makes room for what other lines are answered.
HEAD = """\
table no-rows
page 'UBTR 3 0 2 1 2 0*3 1/4 0/4 1/4 2/4 1/4 .t .x .y .m
page 'R 2 1 0 0/16 0/4
page 'I 1 1/2 0*12 e0>1
store no-rows"""
HEAD += ";size" * 60 + " -> " + "; ".join(["3"] * 61)


def padded(lines):
    """The text of these lines, with a comment behind them."""
    text = "\n".join([*lines, "#"])
    assert len(text) <= LENGTH
    return text + " " * (LENGTH - len(text))


def told_in(text):
    """The lines that are told as answered otherwise, each its number from 0 and its answer; and whether the text was played to its end."""
    told = [(int(number) - 1, answer) for number, answer in re.findall(r"^(\d+): .*\n    (.*)$", text, re.M)]
    return told, re.search(r"^\d+ right, \d+ wrong$", text, re.M) is not None


CHANGES = ("insert", "remove")
NO_ROWS = "rows 0 regions 1; 1 of 1 from 0 to 0"


def refused_answers(lines, place):
    """What a line may be answered that was refused before it did anything: of a change, that the table is as the change before left it."""
    if lines[place].startswith(CHANGES):
        before = [line.split("; ", 1)[1] for line in lines[:place] if line.startswith(CHANGES)]
        last = (before or [NO_ROWS])[-1]
        return [last, f"no such line; {last}"]
    return ["", "none", "none; none"]


class Trial:
    """A program that is played texts, in a folder, with a library that refuses an allocation."""

    def __init__(self, program, work):
        self.program, self.work, self.library = program, work, failing_memory.built(work)

    def play(self, lines, due):
        return failing_memory.ended(self.library, [self.program], due, self.work, padded(lines))

    def outcome(self, lines, due):
        """What a run does without this allocation: `whole`, `told` or `again`; or else what is wrong."""
        status, text, errors = self.play(lines, due)
        told, is_whole = told_in(text)
        if status == 0 and is_whole and not told and not errors:
            return "whole"
        if status != 1 or errors:
            return f"status {status}, {text[-80:]!r} {errors[-80:]!r}"
        if not is_whole or len(told) < 2 or told[0][0] <= HEAD.count("\n"):
            return "told"
        return self.again(lines, due, *told[0])

    def again(self, lines, due, place, answer):
        """The same where the line at a place was refused with this answer: it is asked twice."""
        if answer not in refused_answers(lines, place):
            return f"line {place + 1} is answered {answer!r}"
        asked = lines[place].split(" -> ")[0]
        status, text, errors = self.play([*lines[:place], f"{asked} -> {answer}", *lines[place:]], due)
        told, is_whole = told_in(text)
        # A store that couldn't be made for a line is none for it, which is no fault of memory.
        statuses = (0, 1) if answer == "none" else (1,)
        if status in statuses and (told, is_whole, errors) == ([], True, ""):
            return "again"
        return f"line {place + 1} twice: status {status}, {told[:3]}"


def refused_in_turn(trial, lines, counts):
    """Counts what the runs of a text do without one allocation, each in turn."""
    assert trial.outcome(lines, 0) == "whole"
    due = since = 0
    while since < ROUND:
        due += 1
        outcome = trial.outcome(lines, due)
        since = since + 1 if outcome == "whole" else 0
        if outcome not in counts:
            print(f"allocation {due}, {len(lines)} lines: {outcome}")
            outcome = "wrong"
        counts[outcome] += 1


def main():
    program = os.path.abspath(word(1, os.path.join(TOP, "crates/tree_transcripts/out/tree_transcripts")))
    counts = {"whole": 0, "told": 0, "again": 0, "wrong": 0}
    with tempfile.TemporaryDirectory() as work:
        trial = Trial(program, work)
        for changes in tree_trial.TRIALS:
            refused_in_turn(trial, HEAD.split("\n") + list(tree_trial.changed_at_random(*changes)), counts)
    print("tree_allocations.py: {whole} runs were whole, {told} told of it, {again} did it the second time, {wrong} wrong".format(**counts))
    return 1 if counts["wrong"] else 0


if __name__ == "__main__":
    sys.exit(main())
