#!/usr/bin/env python3
"""Holds examples/words.py against what it says of itself.

Random files of dates, words (of any bytes), amounts and whole numbers, some of whose dimensions are spread, come in as two files, one after
the other, and back: the lines must be those of the files, byte for byte. The first is loaded by the program, the second appended, and the
table is asked for all rows, and for those of random conditions, which a model of some lines picks out of the texts themselves. Then, by hand:
what is refused, with its line and its text; that WORDS is moved into place, whole, and stays where a file is refused; that words keep their
numbers, also where several programs bring new ones at once; and that `query` has the status and both outputs of the program.

Run by hand: tests/words.py [HOW MANY [SEED [PROGRAM]]]. It tells each thing that is wrong, and how many were right and wrong.
"""
import datetime
import json
import os
import random
import re
import subprocess
import sys
import tempfile
from decimal import Decimal

from lib.program import TOP, counts, judge, program, word
from lib.queries import OPERATORS

WORDS = os.path.join(TOP, "examples", "words.py")
BYTES = {"encoding": "utf-8", "errors": "surrogateescape"}


def run(words, text="", **more):
    """The status, standard output and standard error of a command that is given a text."""
    ended = subprocess.run(words, input=text.encode(**BYTES), capture_output=True, check=False, timeout=120, **more)
    return ended.returncode, ended.stdout.decode(**BYTES), ended.stderr.decode(**BYTES)


def words(*rest, text="", **more):
    return run([WORDS, *rest], text, **more)


def line_of(texts):
    return ",".join('"' + text.replace('"', '""') + '"' if re.search('[",\n\r]', text) else text for text in texts) + "\n"


# ---- random files


class Kind:
    """A column of a random file: how it is named to words.py, a random text of it, and what a text of it is compared by."""

    def __init__(self, rng, place, name):
        self.kind = rng.choice(["date", "word", "", "0", "2", "2", "4"] if place else ["date", "date", "word", "", "2"])
        self.name, self.spelled = name, f"{name}:{self.kind}" if self.kind else name
        low = rng.choice([0, 1, 2010, 20260101, -40, -5000])
        self.numbers = range(low, low + rng.choice([1, 2, 13, 200, 70000]))
        self.first = datetime.date(rng.choice([1969, 1999, 2026]), rng.randint(1, 12), 20)
        self.days = rng.choice([1, 40, 800])
        self.pool = ["".join(rng.choice('aaBé, "\n\r;7\udcff\'') for _ in range(rng.randint(0, 6))) for _ in range(rng.randint(1, 12))]

    def text(self, rng):
        if self.kind == "word":
            return rng.choice(self.pool)
        if self.kind == "date":
            return (self.first + datetime.timedelta(rng.randrange(self.days))).isoformat()
        return f"{Decimal(rng.choice(self.numbers)).scaleb(-int(self.kind or 0)):f}"

    def compared(self, text):
        return text if self.kind in ("date", "word") else Decimal(text)


class Made:
    """A random table: its columns, how many of them are dimensions and how many of these are spread, and its rows in two parts."""

    def __init__(self, rng):
        self.dims = rng.randint(1, 4)
        self.kinds = [Kind(rng, place, name) for place, name in enumerate("abcdefgh"[:max(2, self.dims + rng.randint(0, 4))])]
        self.spread = rng.choice([0, self.dims, self.dims, rng.randint(0, self.dims)])
        self.parts = [[[kind.text(rng) for kind in self.kinds] for _ in range(rng.choice([1, 5, 40, 200]))] for _ in range(2)]
        self.title = line_of(kind.name for kind in self.kinds)

    def lines(self, rows):
        return self.title + "".join(map(line_of, rows))

    def shuffled(self, rng, rows):
        """The same rows as a CSV file in another order of columns, with a column more, blanks round its header, and a byte order mark."""
        places = rng.sample(range(len(self.kinds) + 1), len(self.kinds) + 1)
        header = [kind.name for kind in self.kinds] + ["more"]
        parts = [line_of(rng.choice(["", " "]) + header[place] + rng.choice(["", " "]) for place in places)]
        parts += [line_of([*row, "?"][place] for place in places) for row in rows]
        return rng.choice(["", "\ufeff"]) + "".join(parts)


def condition(rng, made):
    """A random condition on a table's columns, as words.py is asked it, and whether a row of texts meets it."""
    place = rng.randrange(len(made.kinds))
    kind = made.kinds[place]

    def literal(text):
        is_bare = kind.kind not in ("date", "word") and rng.random() < 0.5
        return text if is_bare else "'" + text.replace("'", "''") + "'"

    of = kind.compared
    texts = [row[place] for row in made.parts[0]]
    one, other = rng.choice(texts), rng.choice(texts)
    if kind.kind == "word" or rng.random() < 0.7:
        sign = rng.choice(["=", "<>", "!="] if kind.kind == "word" else list(OPERATORS))
        blank = rng.choice(["", " "])
        return f"{kind.name}{blank}{sign}{blank}{literal(one)}", lambda row: OPERATORS[sign](of(row[place]), of(one))
    return f"{kind.name} between {literal(one)} AND {literal(other)}", lambda row: of(one) <= of(row[place]) <= of(other)


def joined(rng, made):
    text, meets = condition(rng, made)
    for _ in range(rng.randint(0, 2)):
        more, meets_more = condition(rng, made)
        if rng.random() < 0.5:
            text, meets = f"({text}) AND {more}", lambda row, a=meets, b=meets_more: a(row) and b(row)
        else:
            text, meets = f"({text}) OR NOT {more}", lambda row, a=meets, b=meets_more: a(row) or not b(row)
    return text, meets


def fills(numbers, spread):
    """Whether the spans of these columns have as many bits as the widest one's, or as 31 bits for the longest number hold."""
    columns = list(zip(*numbers))[:spread]
    spans = [max(1, (max(column) - min(column)).bit_length()) for column in columns]
    longest = [max(number.bit_length() for number in column) for column in columns]
    # A column that has one value alone counts as one bit, which its multiple doesn't show.
    return all(span == max(spans) or most == 31 or len(set(column)) == 1 for column, span, most in zip(columns, spans, longest))


def try_case(rng, made, tried, work):
    path, table = os.path.join(work, "made.words"), os.path.join(work, "made.ub")
    for name in (path, table):
        if os.path.exists(name):
            os.remove(name)
    env = dict(os.environ, UBQ=tried)
    answer = words("new", path, *(["--spread", str(made.spread)] if made.spread else []), *(kind.spelled for kind in made.kinds))
    judge("a file of words is begun", answer == (0, "", ""), answer)
    plain, numbers = [], []
    for rows in made.parts:
        status, text, said = words("in", path, text=made.shuffled(rng, rows))
        judge("a file comes in", (status, said) == (0, ""), said)
        answer = words("out", path, text=text)
        judge("and back as it was", answer == (0, made.lines(rows), ""), answer)
        plain.append(text)
        numbers.append([[int(number) for number in line.split(",")] for line in text.splitlines()[1:]])
    judge("dimensions are spread", fills(numbers[0], made.spread), numbers[0])

    dims = [number for row in numbers[0] + numbers[1] for number in row[:made.dims]]
    mask = 2 ** made.dims - 1 if min(dims) < 0 else 0
    loads = [tried, "load", "-", table, "--dims", str(made.dims), "--signed", str(mask), "--page-rows", "4"]
    status, text, said = run(loads, plain[0])
    judge("the first file is loaded", (status, said) == (0, ""), (text, said))
    rows = list(made.parts[0])
    low = -(2**31) if mask else 0
    # The second part may have values that the spread of the first leaves no bits for.
    if all(low <= number < low + 2**32 for number in dims):
        answer = run([tried, "append", table, "-"], plain[1])
        rows += made.parts[1]
        judge("the second is appended", answer == (0, f"-- appended {len(made.parts[1])}, rows {len(rows)}\n", ""), answer)
    asked = [("", lambda row: True)] + [(" WHERE " + text, meets) for text, meets in (joined(rng, made) for _ in range(6))]
    for text, meets in asked:
        status, answer, said = words("query", path, table, f"SELECT * FROM t{text};", env=env)
        chosen = [row for row in rows if meets(row)]
        judge(f"what is selected{text}", (status, answer) == (0, made.lines(chosen)), (answer, said))
        judge("and how many rows", said.startswith(f"-- rows {len(chosen)}, pages "), said)
    for place, kind in enumerate(made.kinds):
        if kind.kind == "word":
            continue
        values = [row[place] for row in rows]
        wanted = [min(values, key=kind.compared), max(values, key=kind.compared)]
        items = ["MIN({})", "MAX({})"]
        if kind.kind != "date":
            wanted.append(f"{sum(Decimal(value) for value in values):f}")
            items.append("SUM({})")
        items = ",".join(items).format(*[kind.name] * len(items))
        answer = words("query", path, table, f"SELECT {items} FROM t", env=env)
        judge("aggregates", answer[:2] == (0, items + "\n" + ",".join(wanted) + "\n"), answer)


# ---- by hand


def has(answer, status, text, said):
    return answer == (status, text, said)


def refusals(work):
    path = os.path.join(work, "s.words")
    words("new", path, "--spread", "2", "date:date", "town:word", "pieces", "euros:2")
    good = "date,town,pieces,euros\n2026-06-01,Trier,1,2.50\n2026-06-08,\"Bonn, \"\"Süd\"\"\",2,-3\n2026-06-30,Köln,3,4.5\n"
    answer = words("in", path, text=good)
    wanted = "date,town,pieces,euros\n20260601,0,1,250\n20260608,8,2,-300\n20260630,16,3,450\n"
    judge("words, dates and amounts", has(answer, 0, wanted, ""), answer)
    with open(path, **BYTES) as file:
        kept = file.read()
    for data, why in [
        ("date,town,pieces,euros\n2026-06-01,Trier,1,2.50\n\n2026-6-2,Ulm,1,1\n", "line 4: date: '2026-6-2' is no day like 2026-06-01"),
        ("date,town,pieces,euros\n2026-06-31,Ulm,1,1\n", "line 2: date: '2026-06-31' is no day like 2026-06-01"),
        ("date,town,pieces,euros\n20260601,Ulm,1,1\n", "line 2: date: '20260601' is no day like 2026-06-01"),
        ("date,town,pieces,euros\n2026-06-01,\"U\nlm\",1,1.234\n", "line 3: euros: '1.234' has more than 2 decimals"),
        ("date,town,pieces,euros\n2026-06-01,Ulm,1.5,1\n", "line 2: pieces: '1.5' has more than 0 decimals"),
        ("date,town,pieces,euros\n2026-06-01,Ulm,,1\n", "line 2: pieces: '' is no number"),
        ("date,town,pieces,euros\n2026-06-01,Ulm,1e3,1\n", "line 2: pieces: '1e3' is no number"),
        ("date,town,pieces,euros\n2026-06-01,Ulm,NaN,1\n", "line 2: pieces: 'NaN' is no number"),
        ("date,town,pieces,euros\n2026-06-01,Ulm,1\n", "line 2: 3 fields where the header has 4: '2026-06-01,Ulm,1'"),
        ("date,town,pieces\n", "line 1: euros stands 0 times in the header 'date,town,pieces'"),
        ("date,town,euros,pieces,euros\n", "line 1: euros stands 2 times in the header 'date,town,euros,pieces,euros'"),
        ("", "line 0: date stands 0 times in the header ''"),
    ]:
        answer = words("in", path, text=data)
        judge(f"a file is refused: {why}", has(answer, 1, "", f"words.py: {why}\n"), answer)
    with open(path, **BYTES) as file:
        judge("a file that is refused leaves WORDS as it was", file.read() == kept)
    for statement, why in [
        ("SELECT * FROM s WHERE town = 'Ulm'", "town: 'Ulm' was never seen"),
        ("SELECT * FROM s WHERE town < 'Trier'", "town is a word, and words have no order: < doesn't compare them"),
        ("SELECT * FROM s WHERE town BETWEEN 'A' AND 'B'", "town is a word, and words have no order: BETWEEN doesn't compare them"),
        ("SELECT * FROM s WHERE date = 20260601", "date: '20260601' is no day like 2026-06-01"),
        ("SELECT * FROM s WHERE date = 2026-06-01", "date: '2026' is no day like 2026-06-01"),
        ("SELECT * FROM s WHERE euros > 0.001", "euros: '0.001' has more than 2 decimals"),
        ("SELECT * FROM s WHERE nix = 'x'", "nix is no column, and 'x' stands beside it"),
        ("SELECT * FROM s WHERE 'x' = town", "'x' stands beside no column"),
        ("SELECT * FROM s WHERE town = 'x", "'x stands beside no column"),
        ("SELECT sum(date) FROM s", "SUM(date) means nothing, since date is a date"),
        ("SELECT MAX( town ) FROM s", "MAX(town) means nothing, since town is a word"),
        ("INSERT INTO s VALUES (1, 2, 3, 4)", "a row comes in by `words.py in` and `ubq append`, and not by INSERT"),
    ]:
        answer = words("ask", path, statement)
        judge(f"a statement is refused: {why}", has(answer, 1, "", f"words.py: {why}\n"), answer)
    for statement, wanted in [
        ("SELECT * FROM s WHERE date>='2026-06-01'AND town<>'Bonn, \"Süd\"' OR NOT (euros < - 2.5)",
         "SELECT * FROM s WHERE date>=20260601AND town<>8 OR NOT (euros < -250)"),
        ("-- it's town = 'Ulm'\nDELETE FROM s WHERE town = 'Köln'; SELECT COUNT(*), SUM(euros) FROM s GROUP BY town LIMIT 3",
         "-- it's town = 'Ulm'\nDELETE FROM s WHERE town = 16; SELECT COUNT(*), SUM(euros) FROM s GROUP BY town LIMIT 3"),
        ("select * from s where euros between 1 and 2.25 and nix > 5", "select * from s where euros between 100 and 225 and nix > 5"),
    ]:
        answer = words("ask", path, statement)
        judge("literals are numbers", has(answer, 0, wanted + "\n", ""), answer)
    for answers, wanted in [
        ("town,COUNT(*),MIN(date),SUM(euros),x\n16,1,20260630,-5,7\n-- rows 1, pages 2\nMAX(date)\nNULL\n! Syntax at 7\n",
         "town,COUNT(*),MIN(date),SUM(euros),x\nKöln,1,2026-06-30,-0.05,7\n-- rows 1, pages 2\nMAX(date)\nNULL\n! Syntax at 7\n"),
        ("plan scan\ncover exact\nbox date 0..5, town 0..9\n", "plan scan\ncover exact\nbox date 0..5, town 0..9\n"),
        ("town\n8\n", "town\n\"Bonn, \"\"Süd\"\"\"\n"),
        ("", ""),
    ]:
        answer = words("out", path, text=answers)
        judge("answers in words", has(answer, 0, wanted, ""), answer)
    for answers, why in [
        ("town\n24\n", "line 2 of the answers: town: 24 is the number of no value"),
        ("town\n9\n", "line 2 of the answers: town: 9 is the number of no value"),
        ("town\n8,9\n", "line 2 of the answers: '8,9' is no row of the titles before it"),
        ("SUM(date)\n8\n", "line 2 of the answers: SUM(date) means nothing, since date is a date"),
    ]:
        status, _, said = words("out", path, text=answers)
        judge(f"answers are refused: {why}", (status, said) == (1, f"words.py: {why}\n"), said)
    for rest, why in [
        ([path, "a"], f"{path} is there already, and a table may need it"),
        ([path + "x", "a", "b", "a:2"], "a is named twice"),
        ([path + "x", "a", "b:text"], "'b:text' is no column like name, name:2, name:date or name:word"),
        ([path + "x", "9a"], "'9a' is no column like name, name:2, name:date or name:word"),
        ([path + "x", "--spread", "3", "a", "b"], "there are no 3 columns to spread"),
    ]:
        answer = words("new", *rest)
        judge(f"a file of words is not begun: {why}", has(answer, 1, "", f"words.py: {why}\n") and not os.path.exists(path + "x"), answer)
    answer = words("ask", path + "x", "SELECT")
    judge("no WORDS", answer[0] == 1 and answer[2].startswith("words.py: [Errno 2] No such file or directory"), answer)
    for rest in ([], ["in"], ["new", path + "x"], ["new", path + "x", "--spread", "2"], ["ask", path], ["out", path, "x"]):
        answer = words(*rest)
        judge("other words are told how", answer[:2] == (2, "") and "words.py new WORDS" in answer[2], answer)


def lasting(work):
    """WORDS is moved into place: who has the old one open reads it whole. Words keep their numbers, whoever brings new ones meanwhile."""
    path = os.path.join(work, "l.words")
    words("new", path, "town:word", "n")
    words("in", path, text="town,n\nTrier,1\nBonn,2\n")
    with open(path, **BYTES) as file:
        before = os.fstat(file.fileno()).st_ino
        words("in", path, text="town,n\nKöln,1\nBonn,2\n")
        judge("the old WORDS stays whole for who reads it", json.load(file)[0]["words"] == ["Trier", "Bonn"])
    judge("the new one is another file", os.stat(path).st_ino != before and sorted(os.listdir(work)) == ["l.words"], os.listdir(work))
    answer = words("in", path, text="n,town\n7,Ulm\n8,Köln\n9,Trier\n")
    judge("words keep their numbers", has(answer, 0, "town,n\n3,7\n2,8\n0,9\n", ""), answer)
    many = []
    for start in range(8):
        text = "town,n\n" + "".join(f"town {number},0\n" for number in range(start * 20, start * 20 + 40))
        child = subprocess.Popen([WORDS, "in", path], stdin=subprocess.PIPE, stdout=subprocess.PIPE)
        child.stdin.write(text.encode())
        many.append((text, child))
    for _, child in many:
        child.stdin.close()
    for text, child in many:
        answer = words("out", path, text=child.stdout.read().decode())
        child.wait()
        judge("of several at once each one's words are in", has(answer, 0, text, ""), answer)
    with open(path, **BYTES) as file:
        kept = json.load(file)[0]["words"]
    judge("each once", len(kept) == len(set(kept)) == 4 + 180, kept)


def querying(work):
    """`query` by a program that stands in for ubq: its words, both outputs in their order, its status."""
    path, stand_in = os.path.join(work, "q.words"), os.path.join(work, "ubq")
    words("new", path, "town:word", "euros:2")
    words("in", path, text="town,euros\nTrier,1\nBonn,2\n")
    with open(stand_in, "w", encoding="utf-8") as file:
        file.write("#!/bin/sh\necho \"ubq: waiting, $*\" >&2\nprintf 'town,SUM(euros)\\n1,-5\\n'\n"
                   "printf '%s\\n' '-- rows 1, pages 1' '! Full' >&2\nexit 3\n")
    os.chmod(stand_in, 0o755)
    ended = subprocess.run([WORDS, "query", path, "-t.ub", "-- x\nSELECT town = 'Bonn'"], stdout=subprocess.PIPE,
                           stderr=subprocess.STDOUT, check=False, env=dict(os.environ, UBQ=stand_in))
    wanted = "ubq: waiting, query -- -t.ub -- x\nSELECT town = 1\ntown,SUM(euros)\nBonn,-0.05\n-- rows 1, pages 1\n! Full\n"
    judge("query", (ended.returncode, ended.stdout.decode()) == (3, wanted), ended)
    answer = words("query", path, "t.ub", "SELECT 1", env=dict(os.environ, UBQ=stand_in + "x"))
    judge("query with no program", answer[0] == 1 and answer[2].startswith("words.py: [Errno 2]"), answer)


def main():
    count, rng, tried = int(word(1, 30)), random.Random(int(word(2, 1))), program(3)
    for part in (refusals, lasting, querying):
        with tempfile.TemporaryDirectory() as work:
            part(work)
    with tempfile.TemporaryDirectory() as work:
        for _ in range(count):
            try_case(rng, Made(rng), tried, work)
    print(f"words: {counts['right']} right, {counts['wrong']} wrong")
    return counts["wrong"] > 0


if __name__ == "__main__":
    sys.exit(main())
