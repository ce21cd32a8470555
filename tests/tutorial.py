#!/usr/bin/env python3
"""Runs each command line that docs/TUTORIAL.md shows, in their order and in one shell, in a folder for scratch that has this repository's
`examples` and `tests`, and compares what each writes, to standard output and to standard error, with what the tutorial shows, byte for byte.

A line of the tutorial's indented text that begins with `$ ` is a command, together with the lines after it that begin with `> `; the lines up to
the next command or to the end of the indented text are what it writes. Nothing is skipped.

Run by hand: tests/tutorial.py [PROGRAM]. It tells each command that wrote something else, and how many were right and wrong.
"""
import os
import re
import subprocess
import sys
import tempfile

from lib.program import TOP, program

TUTORIAL = os.path.join(TOP, "docs", "TUTORIAL.md")
INDENT = "    "
# What parts the output of two commands. No command of the tutorial writes a byte of value 0.
MARK = b"\0"


def commands(text):
    """The commands of a text of Markdown: the number of the line where each begins, its lines, and the lines that it writes."""
    found, inside = [], False
    for number, line in enumerate(text.split("\n"), 1):
        if not line.startswith(INDENT):
            inside = False
            continue
        line = line[len(INDENT):]
        if line.startswith("$ "):
            found.append((number, [line[2:]], []))
            inside = True
        elif not inside:
            sys.exit(f"{TUTORIAL}:{number}: indented, and neither a command nor what one writes: {line}")
        elif line.startswith("> ") and not found[-1][2]:
            found[-1][1].append(line[2:])
        else:
            found[-1][2].append(line)
    return found


def written_by(found, work):
    """What each of the commands writes, as far as they are run. Each ends with a mark, and the next one sees the status of the one before."""
    parts = ["exec 2>&1", "mark() { local status=$?; printf '\\0'; return $status; }"]
    for _, lines, _ in found:
        parts += lines + ["mark"]
    ended = subprocess.run(
        ["bash", "-c", "\n".join(parts)], cwd=work, stdin=subprocess.DEVNULL, stdout=subprocess.PIPE, timeout=600, check=False,
        env=dict(os.environ, PATH=os.path.join(work, "bin") + os.pathsep + os.environ["PATH"], LC_ALL="C"))
    return ended.stdout.split(MARK)[:-1]


def main():
    tried = program()
    with open(TUTORIAL, encoding="utf-8") as file:
        found = commands(file.read())
    # Each line of Markdown that looks like a command is one.
    with open(TUTORIAL, encoding="utf-8") as file:
        assert len(re.findall(r"(?m)^ *\$ ", file.read())) == len(found)
    with tempfile.TemporaryDirectory() as work:
        for name in ("examples", "tests"):
            os.symlink(os.path.join(TOP, name), os.path.join(work, name))
        os.mkdir(os.path.join(work, "bin"))
        os.symlink(tried, os.path.join(work, "bin", "ubq"))
        outputs = written_by(found, work)
        left = sorted(os.listdir(work))
    right = wrong = 0
    for at, (number, lines, shown) in enumerate(found):
        wanted = "".join(line + "\n" for line in shown).encode()
        output = outputs[at] if at < len(outputs) else None
        if output == wanted:
            right += 1
            continue
        wrong += 1
        print(f"WRONG: docs/TUTORIAL.md:{number}: $ {lines[0]}")
        if output is None:
            print("    it was not run to its end")
        else:
            for line in output.decode(errors="replace").split("\n"):
                print("    | " + line)
    if left != ["bin", "examples", "tests"]:
        wrong += 1
        print(f"WRONG: the tutorial leaves something behind: {', '.join(left)}")
    print(f"tutorial: {right} commands right, {wrong} wrong")
    return wrong > 0


if __name__ == "__main__":
    sys.exit(main())
