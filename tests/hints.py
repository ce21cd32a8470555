#!/usr/bin/env python3
"""Runs the program with a terminal (a pty) for its standard error, and holds what people are told there beside a refusal against what must
be; that it is all of standard error, or stands behind the notes of a query; and that standard output and the status are those of a run
whose standard error is a pipe, on which nothing is told but those notes. Then files that stay, byte for byte.

Run by hand: tests/hints.py [PROGRAM]. It tells what was shown where it is wrong, and how many were right and wrong.
"""
import os
import pty
import subprocess
import sys
import tempfile

from lib.program import counts, judge, program

LOAD = ["load", "new.csv", "new.ub", "--dims", "2", "--name", "trips"]
GOOD = b"zone,date,fare\n1,3,5\n"
BAD = b"zone,date,fare\n1,3,5\n2,2026-01-01,7\n"
DATE = "line 3, row 2, column 2 (date): '2026-01-01' is no whole number\n"
MOST = 16 * 1024 * 1024


def at_a_terminal(tried, words, typed):
    """The status, what standard output was given, and what a terminal for standard error shows."""
    end, theirs = pty.openpty()
    with tempfile.TemporaryFile() as given, tempfile.TemporaryFile() as out:
        given.write(typed)
        given.seek(0)
        child = subprocess.Popen([tried, *words], stdin=given, stdout=out, stderr=theirs)
        os.close(theirs)
        shown = b""
        while True:
            try:
                got = os.read(end, 65536)
            except OSError:
                break
            if not got:
                break
            shown += got
        os.close(end)
        status = child.wait()
        out.seek(0)
        return status, out.read(), shown.decode().replace("\r\n", "\n")


def through_pipes(tried, words, typed):
    """The same where standard error is a pipe."""
    ended = subprocess.run([tried, *words], input=typed, capture_output=True, check=False)
    return ended.returncode, ended.stdout, ended.stderr.decode()


def tells(tried, what, words, status, told, typed=b"", notes=""):
    """Wants this told at a terminal, behind these notes, and these notes alone through pipes, with one status and one output."""
    with open("t.ub", "rb") as table:
        before = table.read()
    shown = at_a_terminal(tried, words, typed)
    plain = through_pipes(tried, words, typed)
    judge(what, shown[0] == status and shown[2] == notes + told, shown)
    judge(f"{what}, through pipes", plain == (status, shown[1], notes), plain)
    with open("t.ub", "rb") as table:
        judge(f"{what}: the table stays", table.read() == before)


def write(name, text):
    with open(name, "wb") as file:
        file.write(text)


def of_data(tried):
    write("new.csv", BAD)
    tells(tried, "a bad number", LOAD, 3, "ubq: new.csv: " + DATE)
    tells(tried, "of standard input", [word.replace("new.csv", "-") for word in LOAD], 3, "ubq: standard input: " + DATE, BAD)
    # A load keeps the record that it read last, however long the text is before or behind it; what is tried is kept whole, or not.
    header, rows = BAD.split(b"\n", 1)
    many = MOST // 6 + 1
    late = header + b"\n" + b"3,4,5\n" * many + rows
    read = [word.replace("new.csv", "-") for word in LOAD]
    tells(tried, "of one that goes on behind it", read, 3, "ubq: standard input: " + DATE, BAD + b"3,4,5\n" * many)
    told = DATE.replace("line 3, row 2", f"line {many + 3}, row {many + 2}")
    tells(tried, "of one that is too long to be kept", read, 3, "ubq: standard input: " + told, late)
    write("new.csv", late)
    tells(tried, "of a long file", LOAD, 3, "ubq: new.csv: " + told)
    write("s.sql", b"SELECT COUNT(*) FROM trips")
    tells(tried, "what is tried, and too long to be kept", ["try", "-", "s.sql", *LOAD[3:]], 3, "", late)
    tells(tried, "what is tried, of standard input", ["try", "-", "s.sql", *LOAD[3:]], 3, "ubq: standard input: " + DATE, BAD)
    write("new.csv", b"\xef\xbb\xbfzone,date,fare\r\n1,3,5\r\n\r\n-4,2,7\r\n")
    tells(tried, "out of range, with the mark of UTF-8", LOAD, 3,
          "ubq: new.csv: line 4, row 2, column 1 (zone): '-4' is not in 0 to 4294967295\n")
    write("new.csv", b'zone,date,fare\n1,"3\n",5\n1,3\n')
    tells(tried, "a line end in a field", LOAD, 3,
          "ubq: new.csv: line 2, row 1, column 2 (date): '3 ' is no whole number\n")
    write("new.csv", b'zone,date,fare\r\n"1\r\n",3,5\r\n')
    tells(tried, "another one, of two bytes", LOAD, 3,
          "ubq: new.csv: line 2, row 1, column 1 (zone): '1  ' is no whole number\n")
    write("new.csv", b"zone,date,fare\n1,3,5\n\n\n2,x,7")
    tells(tried, "a last line without an end, behind empty ones", LOAD, 3,
          "ubq: new.csv: line 5, row 2, column 2 (date): 'x' is no whole number\n")
    write("new.csv", b"\n\r\nzone,date,fare\r\n\r\n1,3,x\r\n")
    tells(tried, "empty lines before the header", LOAD, 3,
          "ubq: new.csv: line 5, row 1, column 3 (fare): 'x' is no whole number\n")
    write("new.csv", b"zone,date,fare\r1,3,5\r1,3,x\r")
    tells(tried, "lines that a carriage return ends", LOAD, 3,
          "ubq: new.csv: line 1, row 2, column 3 (fare): 'x' is no whole number\n")
    write("new.csv", b"zone,date,fare\n1,3,5\n1,3\n")
    tells(tried, "a short record", LOAD, 3, "ubq: new.csv: line 3, row 2: the header has 3 fields, and this row 2\n")
    write("new.csv", b"zone\n1\n")
    tells(tried, "too few columns", LOAD, 3, "ubq: new.csv: columns in the header: 1; --dims 2 takes 2 to 6\n")
    write("new.csv", b"fare,zone\n1,3\n")
    tells(tried, "a column that is missing", ["append", "t.ub", "new.csv"], 3, "ubq: new.csv: the header has no 'date'\n")
    write("new.csv", b"fare,Zone,date\n1,3,4\n")
    tells(tried, "a column of another case", ["append", "t.ub", "new.csv"], 3,
          "ubq: new.csv: column 2: 'Zone' is no column of the table: it has zone, date, fare; write 'zone'\n")


def of_statements(tried):
    write("s.sql", b"SELECT zone FROM trips;\nSELECT AVG(fare) FROM trips;\n")
    average = ("line 2, column 11: '(' can't stand here\n    SELECT AVG(fare) FROM trips;\n              ^\n"
               "    there is no AVG: ask SUM and COUNT, and divide\n")
    tells(tried, "AVG", ["run", "t.ub", "s.sql"], 1, "ubq: s.sql: " + average)
    with open("s.sql", "rb") as script:
        tells(tried, "a script of standard input", ["run", "t.ub", "-"], 1, "ubq: standard input: " + average, script.read())
    write("new.csv", GOOD)
    tells(tried, "a script that is tried", ["try", "new.csv", "s.sql", *LOAD[3:]], 1, "ubq: s.sql: " + average)
    unknown = ("ubq: line 1, column 8: 'Zone' is no column: the table has zone, date, fare; write 'zone'\n"
               "    SELECT Zone FROM trips\n           ^\n")
    tells(tried, "a column of another case", ["query", "t.ub", "SELECT Zone FROM trips"], 1, unknown, notes="! UnknownColumn at 7\n")
    date = ("ubq: line 1, column 37: ''' is no sign of the language\n    SELECT zone FROM trips WHERE date = '2026-01-01'\n"
            "                                        ^\n    names and numbers stand without quotes\n")
    asked = "SELECT zone FROM trips WHERE date = '2026-01-01'"
    tells(tried, "a date in quotes", ["query", "t.ub", asked], 1, date, notes="! BadByte at 36\n")
    write("s.sql", b"nix;" * 9)
    told = at_a_terminal(tried, ["run", "t.ub", "s.sql"], b"")[2]
    judge("five at most", told.count("ubq: s.sql: ") == 5, told)
    tells(tried, "nothing of what is answered", ["query", "t.ub", "SELECT zone FROM trips"], 0, "", notes="-- rows 1, pages 1\n")


def main():
    tried = program()
    with tempfile.TemporaryDirectory() as work:
        os.chdir(work)
        write("new.csv", GOOD)
        subprocess.run([tried, "load", "new.csv", "t.ub", *LOAD[3:]], stdout=subprocess.DEVNULL, check=True)
        of_data(tried)
        of_statements(tried)
        os.chdir("/")
    print(f"hints: {counts['right']} right, {counts['wrong']} wrong")
    return counts["wrong"] > 0


if __name__ == "__main__":
    sys.exit(main())
