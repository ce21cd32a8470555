"""The program that a test by hand runs, and how random cases are held against it."""
import collections
import os
import random
import subprocess
import sys
import tempfile

TOP = os.path.dirname(os.path.dirname(os.path.dirname(os.path.abspath(__file__))))
# The text of a small table: five rows of two dimensions and a measure.
FIVE_ROWS = os.path.join(TOP, "tests", "data", "s.csv")

# How many things were right and wrong, by `judge`.
counts = {"right": 0, "wrong": 0}


def judge(what, is_right, seen=""):
    """Counts what was seen, and shows it where it is wrong."""
    counts["right" if is_right else "wrong"] += 1
    if not is_right:
        print(f"WRONG: {what}")
        for line in str(seen).splitlines():
            print("    | " + line)


def word(place, default):
    """The word at this place of the command line, the first being 1, or else the default."""
    return sys.argv[place] if len(sys.argv) > place else default


def program(place=1):
    """The program that the word at this place of the command line names, or, where there is none, the proved one, which is proved and built
    first."""
    named = word(place, None)
    if named is not None:
        return os.path.abspath(named)
    subprocess.run([os.path.join(TOP, "bin", "ubq"), "--prove"], check=True)
    return os.path.join(TOP, "crates", "ubq", "out", "ubq")


def try_cases(name, cases, is_right, print_transcript):
    """What a script does that holds random cases against a model: it reads its words, HOW MANY, SEED and PROGRAM, or `--transcript`, and
    tells how many of `cases(count, rng, counts)` were right and wrong, and what `counts` holds of them. The status that it ends with."""
    is_transcript = "--transcript" in sys.argv
    if is_transcript:
        sys.argv.remove("--transcript")
    count, rng = int(word(1, 500)), random.Random(int(word(2, 1)))
    kinds = collections.Counter()
    if is_transcript:
        print_transcript(count, rng, kinds)
        return 0
    tried = program(3)
    right = wrong = 0
    with tempfile.TemporaryDirectory() as work:
        for case in cases(count, rng, kinds):
            if is_right(tried, case, work):
                right += 1
            else:
                wrong += 1
    print(f"{name}: {right} right, {wrong} wrong; " + ", ".join(f"{kind} {many}" for kind, many in sorted(kinds.items())))
    return wrong > 0


def ends_so(tried, line, work):
    """Whether a command line, which is its words, the texts that it reads by their names, what it must write and its status, does that in
    this folder; what differs is printed."""
    words, texts, text, status = line
    for name, held in texts.items():
        with open(os.path.join(work, name), "w") as file:
            file.write(held)
    ended = subprocess.run([tried, *words.split()], cwd=work, capture_output=True, text=True)
    if (ended.stdout, ended.returncode) == (text, status):
        return True
    shown = "".join(f"{name}:\n{held}\n" for name, held in texts.items())
    print(f"{shown}{words}\nwanted, with status {status}:\n{text}told, with status {ended.returncode}:\n{ended.stdout}{ended.stderr}")
    return False


def print_line(line):
    """Prints a command line, and the texts that it reads before it, as crates/transcripts takes them."""
    words, texts, text, status = line
    for name, held in texts.items():
        print(f"== {name}\n{held}", end="" if held.endswith("\n") else "\n")
    print(f"$ {words}\n{text}? {status}\n")
