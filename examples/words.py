#!/usr/bin/env python3
"""Between a CSV file of words, dates and amounts and a table of `ubq`, which has whole numbers alone.

  words.py new WORDS [--spread D] COLUMN..   begins the file WORDS: which columns are taken, in the order of the table
  words.py in WORDS <DATA                    writes these columns as whole numbers, for `ubq load` and `ubq append`
  words.py ask WORDS STATEMENTS              writes the statements with a number in the place of each literal beside a column
  words.py out WORDS <ANSWERS                writes what `ubq` answered with dates, words and amounts in the place of numbers
  words.py query WORDS TABLE STATEMENTS      asks TABLE by `ubq query`, from words to words, and ends with its status
                                             (by the program that UBQ names, where it is set)

A COLUMN is NAME (whole numbers), NAME:2 (amounts of two decimals, or of as many as it says), NAME:date (2026-06-01) or NAME:word (any
text). DATA has a header, in which the columns are found by their names; what else it has is left out. A literal is a number, or stands
between quotes: date >= '2026-06-01' AND town <> 'Bonn' AND euros < 10.50.

A date's number is its digits, 20260601, which keeps the order of the days. A word's number is how many others were seen before it, so
words can be compared by = and <> alone, and ORDER BY has them in the order in which they came.

--spread D: the first D columns are the table's dimensions, and are to be spread. A UB-tree cuts its dimensions by the bits in which
their values differ, the highest first. So the first DATA says how many bits the span of each one's values has, and one of fewer bits
than the widest is multiplied by the power of two that makes up for it: in DATA, in literals, and back again in answers. No value of the
first DATA gets more than 31 bits by that; a later one that 32 don't hold is refused by `ubq`.

WORDS lasts from day to day: it has each word that was seen, and is moved into place when DATA was read whole and before a number goes
out: whatever stops this, it is the old one or the new one. DATA and statements that are refused write nothing.
"""
import csv
import datetime
import fcntl
import json
import os
import re
import signal
import subprocess
import sys
import tempfile
from contextlib import contextmanager
from dataclasses import asdict, dataclass, field

UTF8 = {"encoding": "utf-8", "errors": "surrogateescape"}
BITS = 31
NAME = r"[A-Za-z_]\w*"
LITERAL = r"'(?:[^']|'')*'|[-+]?\s*[\d.]+"
# What is looked for in statements. A comment, and a text between quotes that stands beside no column, are found lest they be taken for more.
ASKED = re.compile(
    rf"""--[^\n]*
    | \b (?P<aggregate>SUM|MIN|MAX) \s*\(\s* (?P<inner>{NAME}) \s*\)
    | \b (?P<values>VALUES) \b
    | \b (?P<name>{NAME}) (?: (?P<operator>\s*(?:<=|>=|<>|!=|=|<|>)\s*) (?P<literal>{LITERAL})
        | (?P<between>\s+BETWEEN\s+) (?P<low>{LITERAL}) (?P<and>\s+AND\s+) (?P<high>{LITERAL}) )
    | (?P<quoted>'(?:[^']|'')*'?)""",
    re.VERBOSE | re.IGNORECASE | re.ASCII)
TITLE = re.compile(rf"(?:(SUM|MIN|MAX)\()?({NAME})\)?", re.ASCII)
CELL = re.compile(r"-?\d+|NULL", re.ASCII)


class Refused(Exception):
    """What is refused, and why, in words for a person."""


@dataclass
class Column:
    """A column: of which kind its values are (`date`, `word`, or how many decimals), whether the first DATA is to say by how much it is
    spread, by what its numbers are multiplied, and the words that were seen, in order."""
    name: str
    kind: str = "0"
    waits: bool = False
    times: int = 1
    words: list[str] = field(default_factory=list)

    def __post_init__(self):
        self.numbers = {word: number for number, word in enumerate(self.words)}

    def see(self, word):
        if word not in self.numbers:
            self.numbers[word] = len(self.words)
            self.words.append(word)

    def number(self, text):
        """The number of a value, before it is spread."""
        if self.kind == "word":
            if text not in self.numbers:
                raise Refused(f"{self.name}: {text!r} was never seen")
            return self.numbers[text]
        text = text.strip(" ")
        if self.kind == "date":
            return digits_of_date(self.name, text)
        return scaled(self.name, text, int(self.kind))

    def value(self, number):
        """The value of a spread number."""
        plain, rest = divmod(number, self.times)
        if rest or self.kind == "word" and not 0 <= plain < len(self.words):
            raise Refused(f"{self.name}: {number} is the number of no value")
        if self.kind == "word":
            return self.words[plain]
        if self.kind == "date":
            return f"{plain // 10000:04}-{plain // 100 % 100:02}-{plain % 100:02}"
        return with_point(plain, int(self.kind))

    def must_mean(self, aggregate):
        """A sum of dates, and any aggregate of words but COUNT, mean nothing."""
        if self.kind == "word" or self.kind == "date" and aggregate.upper() == "SUM":
            raise Refused(f"{aggregate.upper()}({self.name}) means nothing, since {self.name} is a {self.kind}")


def digits_of_date(name, text):
    try:
        if re.fullmatch(r"\d{4}-\d\d-\d\d", text, re.ASCII) and datetime.date.fromisoformat(text):
            return int(text.replace("-", ""))
    except ValueError:
        pass
    raise Refused(f"{name}: {text!r} is no day like 2026-06-01")


def scaled(name, text, decimals):
    """An amount as a whole number of its smallest parts."""
    found = re.fullmatch(r"([-+]?\d+)(?:\.(\d+))?", text, re.ASCII)
    if found is None:
        raise Refused(f"{name}: {text!r} is no number")
    part = (found[2] or "").rstrip("0")
    if len(part) > decimals:
        raise Refused(f"{name}: {text!r} has more than {decimals} decimals")
    return int(found[1] + part.ljust(decimals, "0"))


def with_point(number, decimals):
    if decimals == 0:
        return str(number)
    digits = str(abs(number)).rjust(decimals + 1, "0")
    return f"{'-' if number < 0 else ''}{digits[:-decimals]}.{digits[-decimals:]}"


def line_of(cells):
    """A line of CSV, with quotes where they must be."""
    quoted = ('"' + cell.replace('"', '""') + '"' if re.search('[",\r\n]', cell) else cell for cell in cells)
    return ",".join(quoted) + "\n"


def read_words(path):
    with open(path, **UTF8) as file:
        return [Column(**column) for column in json.load(file)]


@contextmanager
def alone(path):
    """The folder of WORDS, locked, so that of two programs at once one waits and sees the other's words."""
    folder = os.open(os.path.dirname(os.path.abspath(path)), os.O_RDONLY)
    try:
        fcntl.flock(folder, fcntl.LOCK_EX)
        yield folder
    finally:
        os.close(folder)


def keep(path, columns, folder):
    """Moves the columns into the place of WORDS: its bytes last before it has its name, and its name before this ends."""
    with open(path + ".new", "w", **UTF8) as file:
        json.dump([asdict(column) for column in columns], file, ensure_ascii=False, indent=1)
        file.flush()
        os.fsync(file.fileno())
    os.replace(path + ".new", path)
    os.fsync(folder)


def begin(path, spread, texts):
    columns = []
    for place, text in enumerate(texts):
        name, _, kind = text.partition(":")
        if not re.fullmatch(NAME, name, re.ASCII) or not re.fullmatch(r"date|word|\d?", kind, re.ASCII):
            raise Refused(f"{text!r} is no column like name, name:2, name:date or name:word")
        if any(name == column.name for column in columns):
            raise Refused(f"{name} is named twice")
        columns.append(Column(name, kind or "0", waits=place < spread))
    if not 0 <= spread <= len(columns):
        raise Refused(f"there are no {spread} columns to spread")
    with alone(path) as folder:
        if os.path.exists(path):
            raise Refused(f"{path} is there already, and a table may need it")
        keep(path, columns, folder)


def spread_out(columns, rows):
    """Says of the columns that wait for it by what they are multiplied, so that the span of each has as many bits as the widest one's."""
    values = {column.name: [row[place] for row in rows] for place, column in enumerate(columns) if column.waits}
    spans = {name: max(1, (max(numbers) - min(numbers)).bit_length()) for name, numbers in values.items() if numbers}
    for column in columns:
        if column.name in spans:
            longest = max(number.bit_length() for number in values[column.name])
            column.times = 2 ** max(0, min(max(spans.values()) - spans[column.name], BITS - longest))
            column.waits = False


def read_rows(columns, file):
    """The rows of a CSV file, as numbers before they are spread. New words are seen."""
    rows, found = [], csv.reader(file)
    try:
        header = [name.strip(" ") for name in next(found, [])]
        for column in columns:
            if header.count(column.name) != 1:
                raise Refused(f"{column.name} stands {header.count(column.name)} times in the header {','.join(header)!r}")
        places = [header.index(column.name) for column in columns]
        for record in found:
            if not record:
                continue
            if len(record) != len(header):
                raise Refused(f"{len(record)} fields where the header has {len(header)}: {','.join(record)!r}")
            for column, place in zip(columns, places):
                if column.kind == "word":
                    column.see(record[place])
            rows.append([column.number(record[place]) for column, place in zip(columns, places)])
    except (Refused, csv.Error) as error:
        raise Refused(f"line {found.line_num}: {error}") from None
    return rows


def read_in(path, file, out):
    with alone(path) as folder:
        columns = read_words(path)
        rows = read_rows(columns, file)
        spread_out(columns, rows)
        keep(path, columns, folder)
    out.write(line_of(column.name for column in columns))
    out.writelines(line_of(str(column.times * number) for column, number in zip(columns, row)) for row in rows)


def asked(columns, statements):
    by_name = {column.name: column for column in columns}
    return ASKED.sub(lambda found: rewritten(by_name, found), statements)


def rewritten(by_name, found):
    """What stands in the place of what was found in a statement."""
    if found["values"]:
        raise Refused("a row comes in by `words.py in` and `ubq append`, and not by INSERT")
    if found["quoted"]:
        raise Refused(f"{found['quoted']} stands beside no column")
    if found["aggregate"] and found["inner"] in by_name:
        by_name[found["inner"]].must_mean(found["aggregate"])
    name = found["name"]
    if name is None:
        return found[0]
    operator = found["between"] or found["operator"]
    column = by_name.get(name)
    if column and column.kind == "word" and operator.strip() not in ("=", "<>", "!="):
        raise Refused(f"{name} is a word, and words have no order: {operator.strip()} doesn't compare them")
    if found["between"]:
        return name + operator + number_of(name, column, found["low"]) + found["and"] + number_of(name, column, found["high"])
    return name + operator + number_of(name, column, found["literal"])


def number_of(name, column, literal):
    """The number in the place of a literal beside a column, or the literal itself where there is no such column, which `ubq` will tell."""
    is_quoted = literal.startswith("'")
    if column is None and is_quoted:
        raise Refused(f"{name} is no column, and {literal} stands beside it")
    if column is None:
        return literal
    text = literal[1:-1].replace("''", "'") if is_quoted else re.sub(r"\s", "", literal)
    return str(column.times * column.number(text))


def write_out(columns, answers, out):
    """A line of cells is a row of the titles before it; any other line stands as it is."""
    by_name = {column.name: column for column in columns}
    shown = []
    for count, line in enumerate(answers, 1):
        cells = line.rstrip("\n").split(",")
        try:
            if not all(CELL.fullmatch(cell) for cell in cells):
                titles = [TITLE.fullmatch(title) for title in cells]
                shown = [(by_name.get(title[2]), title[1]) if title else (None, None) for title in titles]
                out.write(line)
                continue
            if len(cells) != len(shown):
                raise Refused(f"{line.rstrip()!r} is no row of the titles before it")
            out.write(line_of(shown_cell(column, aggregate, cell) for (column, aggregate), cell in zip(shown, cells)))
        except Refused as error:
            raise Refused(f"line {count} of the answers: {error}") from None


def shown_cell(column, aggregate, cell):
    if column is None:
        return cell
    if aggregate:
        column.must_mean(aggregate)
    return cell if cell == "NULL" else column.value(int(cell))


def query(path, table, statements, out):
    """Asks by `ubq query`. What that tells of its answers on standard error goes out after them; that it waits goes out at once."""
    columns, notes = read_words(path), []
    text = asked(columns, statements)
    words = [os.environ.get("UBQ", "ubq"), "query", "--", table, text]
    with tempfile.TemporaryFile("w+", **UTF8) as answers:
        with subprocess.Popen(words, stdout=answers, stderr=subprocess.PIPE, **UTF8) as ubq:
            for line in ubq.stderr:
                if line.startswith(("-- ", "! ")):
                    notes.append(line)
                else:
                    sys.stderr.write(line)
        answers.seek(0)
        write_out(columns, answers, out)
    out.flush()
    sys.stderr.writelines(notes)
    return ubq.returncode


def main(words):
    for ending in (signal.SIGPIPE, signal.SIGINT):
        signal.signal(ending, signal.SIG_DFL)
    sys.stdin.reconfigure(encoding="utf-8-sig", errors="surrogateescape", newline="")
    sys.stdout.reconfigure(**UTF8)
    sys.stderr.reconfigure(**UTF8)
    match words:
        case ["new", path, "--spread", dims, *texts] if texts and dims.isdecimal():
            begin(path, int(dims), texts)
        case ["new", path, *texts] if texts and texts[0] != "--spread":
            begin(path, 0, texts)
        case ["in", path]:
            read_in(path, sys.stdin, sys.stdout)
        case ["ask", path, statements]:
            print(asked(read_words(path), statements))
        case ["out", path]:
            write_out(read_words(path), sys.stdin, sys.stdout)
        case ["query", path, table, statements]:
            return query(path, table, statements, sys.stdout)
        case _:
            print(__doc__, end="", file=sys.stderr)
            return 2
    return 0


if __name__ == "__main__":
    try:
        sys.exit(main(sys.argv[1:]))
    except (Refused, OSError, ValueError, TypeError) as error:
        sys.exit(f"words.py: {error}")
