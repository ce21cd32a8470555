#!/usr/bin/env python3
"""Scripts at the limits, through the program, by hand: the deepest, the longest, the most statements, and bytes that are no text.

    tests/limits.py [PROGRAM]

Each script runs on the table of five rows, in memory (`try`) and from its file (`run`), with the stack that there is and with one of
256 KB. What it writes and its status are worked by hand. It must end within ten seconds, and the file must stay as it is. The last
line tells how many runs were right and wrong; the status is 1 where one was wrong.
"""
import os
import resource
import subprocess
import sys
import tempfile
import time

from lib.program import FIVE_ROWS, counts, judge, program as program_of

SECONDS = 10
STACK = 256 * 1024
TABLE = ["--dims", "2", "--page-rows", "2"]
MILLION = 1000000

WHERE = b"SELECT x FROM t WHERE "
NOTHING = b"m\n-- rows 0, pages 0\n"
ONE = b"x\n1\n-- rows 1, pages 2\n"


def refused(name, at):
    return f"! {name} at {at}\n".encode()


def nested(count, is_closed=True):
    return WHERE + b"(" * count + (b"x = 1" + b")" * count if is_closed else b"")


def many():
    """A hundred thousand statements: an answer, an EXPLAIN, a refusal, and nothing between two semicolons."""
    parts = [b"SELECT m FROM t LIMIT 0;", b"EXPLAIN SELECT m FROM t LIMIT 0;", b"SELECT m FROM u;;"]
    told = b"plan empty\ncover exact\nfilter no\npoints 0\nregions 0 of 3\n"
    script, text, at = [], [], 0
    for i in range(100000):
        part = parts[i % 3]
        script.append(part)
        # The table's name is the fourteenth byte of a refused statement, counted from 0.
        text.append((NOTHING, told, refused("UnknownTable", at + 14))[i % 3])
        at += len(part)
    return b"".join(script), b"".join(text)


def cases():
    """What a script is, the script, the status that it ends with, and what it writes."""
    yield "64 parentheses", nested(64), 0, ONE
    # The 65th stands after 22 bytes and 64 others.
    yield "65 parentheses", nested(65), 1, refused("TooDeep", 86)
    yield "a million parentheses", nested(MILLION), 1, refused("TooDeep", 86)
    yield "a million that aren't closed", nested(MILLION, False), 1, refused("TooDeep", 86)
    yield "ten million that aren't closed", nested(10 * MILLION, False), 1, refused("TooDeep", 86)
    yield "64 NOTs", WHERE + b"NOT " * 64 + b"x = 1", 0, ONE
    # After 22 bytes and 64 times 4.
    yield "ten megabytes of NOTs", WHERE + b"NOT " * (MILLION * 10 // 4), 1, refused("TooDeep", 278)
    yield "64 comparisons", WHERE + b"x = 1 OR " * 63 + b"x = 1", 0, ONE
    # After 22 bytes and 64 times 9: the column's name of the 65th.
    yield "65 comparisons", WHERE + b"x = 1 OR " * 64 + b"x = 1", 1, refused("TooMany", 598)
    yield "ten megabytes of comparisons", WHERE + b"x = 1 OR " * (MILLION * 10 // 9) + b"x = 1", 1, refused("TooMany", 598)
    # It is no statement: the end of the last token is told.
    chain = WHERE + b"x = 1 OR " * (MILLION * 10 // 9)
    yield "the same with no last one", chain, 1, refused("Syntax", len(chain) - 1)
    # The ninth item, after 7 bytes and 8 times 2.
    yield "ten megabytes of items", b"SELECT x" + b",x" * (MILLION * 5) + b" FROM t", 1, refused("TooMany", 23)
    yield "the greatest LIMIT", b"SELECT m FROM t LIMIT 18446744073709551615;", 0, b"m\n10\n20\n5\n7\n1\n-- rows 5, pages 3\n"
    yield "one more", b"SELECT m FROM t LIMIT 18446744073709551616;", 1, refused("NumberTooLarge", 22)
    least = b"SELECT m FROM t WHERE x > -18446744073709551615;"
    yield "the least literal", least, 0, b"m\n10\n20\n5\n7\n1\n-- rows 5, pages 3\n"
    yield "one less", b"SELECT m FROM t WHERE x > -18446744073709551616;", 1, refused("NumberTooLarge", 27)
    yield "a number of ten million digits", WHERE + b"x = " + b"9" * 10 * MILLION, 1, refused("NumberTooLarge", 26)
    yield "one with as many zeros in front", WHERE + b"x = " + b"0" * 10 * MILLION + b"1", 0, ONE
    yield "a name of ten megabytes", b"SELECT " + b"x" * 10 * MILLION + b" FROM t", 1, refused("UnknownColumn", 7)
    yield "a comment of ten megabytes", WHERE + b"--" + b";SELECT" * (MILLION * 10 // 7) + b"\nx = 1", 0, ONE
    yield "ten megabytes of spaces", WHERE + b" " * 10 * MILLION + b"x = 1", 0, ONE
    yield "ten megabytes of semicolons", b";" * 10 * MILLION, 0, b""
    # The whole is one comment: none ends with a carriage return.
    yield "ten megabytes of carriage returns", b"--" + b"\r" * 10 * MILLION + b"SELECT", 0, b""
    yield "carriage returns between tokens", b"\rSELECT\rx\rFROM\rt\rWHERE\rx\r=\r1\r;\r", 0, ONE
    yield "ten megabytes of zero bytes", b"\0" * 10 * MILLION, 1, refused("BadByte", 0)
    yield "bytes that are no UTF-8", b"\xff\xfe\xc3\x28;" + NOTHING[:1] + b"\xe2\x82", 1, refused("BadByte", 0) + refused("BadByte", 6)
    yield "each byte, but for the semicolon", bytes(b for b in range(256) if b != ord(";")), 1, refused("BadByte", 0)
    yield "a byte that is zero behind a statement", b"SELECT m FROM t LIMIT 0;\0", 1, NOTHING + refused("BadByte", 24)
    script, text = many()
    yield "a hundred thousand statements", script, 1, text
    yield "a hundred thousand that are answered", b"SELECT m FROM t LIMIT 0;" * 100000, 0, NOTHING * 100000


def limited():
    resource.setrlimit(resource.RLIMIT_STACK, (STACK, STACK))


def ended(words, setting):
    began = time.monotonic()
    try:
        done = subprocess.run(words, capture_output=True, stdin=subprocess.DEVNULL, timeout=SECONDS, preexec_fn=setting)
    except subprocess.TimeoutExpired:
        return None, b"", b"", SECONDS
    return done.returncode, done.stdout, done.stderr, time.monotonic() - began


def main():
    program = program_of()
    slowest = 0.0, "none"
    with tempfile.TemporaryDirectory() as work:
        table, path = (os.path.join(work, name) for name in ("s.ub", "script.sql"))
        subprocess.run([program, "load", FIVE_ROWS, table] + TABLE, check=True, stdout=subprocess.DEVNULL)
        with open(table, "rb") as file:
            whole = file.read()
        for name, script, status, text in cases():
            with open(path, "wb") as file:
                file.write(script)
            for words in (["try", FIVE_ROWS, path] + TABLE, ["run", table, path]):
                for setting in (None, limited):
                    got = ended([program] + words, setting)
                    slowest = max(slowest, (got[3], f"{words[0]}, {name}"))
                    with open(table, "rb") as file:
                        is_same = file.read() == whole
                    stack = "a stack of 256 KB" if setting else "the usual stack"
                    seen = f"status {got[0]} for {status}, file {'the same' if is_same else 'changed'}\n"
                    seen += f"wrote {got[1][:100]!r} .. {got[1][-100:]!r}\nfor   {text[:100]!r} .. {text[-100:]!r}\n{got[2][-200:]!r}"
                    judge(f"{words[0]}, {name}, with {stack}", got[:3] == (status, text, b"") and is_same, seen)
    print(f"limits.py: {counts['right']} right, {counts['wrong']} wrong; the slowest took {slowest[0]:.2f} s ({slowest[1]})")
    return counts["wrong"] > 0


if __name__ == "__main__":
    sys.exit(main())
