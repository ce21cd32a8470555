#!/usr/bin/env python3
"""Damages table files and scripts at random, and runs the program on them, by hand.

    tests/fuzz_files.py [COUNT [SEED [PROGRAM]]]

Each case has two parts. The first takes a table file that the program loaded, and a script of whole statements on its columns. It
damages the file (bytes, numbers, pages that are swapped, doubled, zeroed or put in, the file cut or made longer), the script (bytes,
words, cuts), or both. Then the program must end within ten seconds, by no signal, with nothing on standard error and with status 0,
1 or 3. What it wrote must be whole texts of statements, as docs/FORMATS.md and docs/SQL.md tell them, and behind them at most one
line of a fault: one with status 3, and none with 0 or 1; with 0 no statement may be refused, and with 1 one at least. Where the
script only asks, the file must hold the same bytes as before; where the file wasn't damaged, `try` on the table's data must write
the same and end alike.

The second takes a sound table file: one that the program loaded, or loaded and changed, or one of another shape that this script
spells itself (indexes of few entries and up to 16 levels, regions of any number of rows, pages in any order, with pages of
garbage between). It does one or several things to it, of which each aims at one check: see `AIMED`.

`ubq check` is run on the file of the first part, before and after its script ran, and on that of the second. A decoder of its own,
made by docs/FORMATS.md, walks the same bytes as `check` is told to, and says how many rows and regions there are, or which word
and page comes first: the program must print just that, with status 0 or 3, and leave the file's bytes. After a script that ended
with status 0 or 1 a file that was sound must be sound.

Whenever `check` says yes to a file of the second part, a script of SELECTs (conditions, which become boxes, ORDER BY, LIMIT, GROUP
BY, sums), and of a few INSERTs and DELETEs, is run on it: each answer must be that of a plain list of the rows that the decoder
read from the pages, changed as the script says, and the file must then be sound, with just those rows and the next number. A script
that only asks must leave the bytes. To a file that `check` refuses the same is run, and must end as in the first part.

A case is made by its number and the seed alone. A wrong one is printed, and its files are kept. The last lines tell how many were
right and wrong, how the scripts ended, what `check` said, and how many answers were compared; the status is 1 where one was wrong.
"""
import collections
import os
import random
import re
import shutil
import struct
import subprocess
import sys
import tempfile

from lib.pages import ENTRIES, LEVELS, PAGE, TOP_NUMBER, entries_on, header_page, index_page, key_at, key_bytes, number_at, number_bytes
from lib.pages import region_page
from lib.program import program as program_of, word
from lib.queries import AGGREGATES, OPERATORS
from lib.regions import HALF, ORIGIN, address, last_address

SECONDS = 10

# ---- The tables: their name, dimensions, rows on a page, mask of signed dimensions, and data


def tables():
    rng = random.Random("tables")
    point = [(5, i) for i in range(1, 7)]
    line = [(i,) for i in range(400)]
    cube = [(rng.randrange(64), rng.randrange(64), rng.randrange(2**32), rng.randrange(-99, 99)) for _ in range(500)]
    wide = [tuple(rng.randrange(16) for _ in range(4)) + tuple(rng.randrange(-(2**63), 2**63) for _ in range(4)) for _ in range(60)]
    five = [(1, 1, 10), (2, 3, 20), (3, 0, 5), (0, 2, 7), (2, 3, 1)]
    plane = [(rng.randrange(-32, 32), rng.randrange(64), rng.randrange(-99, 99)) for _ in range(300)]
    yield "five", 2, 2, 0, "x,y,m", five
    yield "none", 2, 2, 0, "x,y,m", []
    yield "point", 1, 2, 0, "x,m", point
    yield "line", 1, 2, 0, "x", line
    yield "cube", 3, 8, 0, "x,y,z,m", cube
    yield "wide", 4, 64, 0, "a,b,c,d,k,l,m,n", wide
    yield "plane", 2, 8, 1, "x,y,m", plane


def data_of(header, rows):
    return "\n".join([header] + [",".join(map(str, row)) for row in rows]) + "\n"


# ---- Scripts: statements on the columns of a table

EDGES = [0, 1, 2, 3, 7, 63, 399, 2147483647, 2147483648, 4294967295, 4294967296, 18446744073709551615, 18446744073709551616]


def literal(rng):
    return rng.choice(["", "", "", "-"]) + str(rng.choice(EDGES) if rng.random() < 0.3 else rng.randrange(70))


def condition(rng, columns, depth):
    if depth == 0 or rng.random() < 0.4:
        column = rng.choice(columns)
        if rng.random() < 0.3:
            return f"{column} BETWEEN {literal(rng)} AND {literal(rng)}"
        return f"{column} {rng.choice(['=', '<', '>', '<=', '>=', '<>', '!='])} {literal(rng)}"
    if rng.random() < 0.2:
        return "NOT " + condition(rng, columns, depth - 1)
    return f"({condition(rng, columns, depth - 1)} {rng.choice(['AND', 'OR'])} {condition(rng, columns, depth - 1)})"


def aggregate(rng, columns):
    return rng.choice(["COUNT(*)", f"{rng.choice(list(AGGREGATES))}({rng.choice(columns)})"])


def change(rng, columns):
    """An INSERT or a DELETE."""
    name = "u" if rng.random() < 0.03 else "t"
    if rng.random() < 0.6:
        count = len(columns) + rng.choice([0] * 18 + [-1, 1])
        return f"INSERT INTO {name} VALUES ({', '.join(str(rng.randrange(70)) if rng.random() < 0.97 else literal(rng) for _ in range(count))});\n"
    if rng.random() < 0.2:
        return f"DELETE FROM {name};\n"
    return f"DELETE FROM {name} WHERE {condition(rng, columns, rng.randint(0, 3))};\n"


def statement(rng, columns):
    if rng.random() < 0.25:
        return change(rng, columns)
    group = [rng.choice(columns) for _ in range(rng.randint(1, 2))] if rng.random() < 0.3 else []
    if group:
        items = group[:1] + [aggregate(rng, columns) for _ in range(rng.randint(0, 2))]
    elif rng.random() < 0.3:
        items = [aggregate(rng, columns) for _ in range(rng.randint(1, 3))]
    elif rng.random() < 0.3:
        items = ["*"]
    else:
        items = [rng.choice(columns) for _ in range(rng.randint(1, 3))]
    text = rng.choice(["", "", "", "EXPLAIN "]) + f"SELECT {', '.join(items)} FROM {'u' if rng.random() < 0.03 else 't'}"
    if rng.random() < 0.7:
        text += f" WHERE {condition(rng, columns, rng.randint(0, 3))}"
    if group:
        text += f" GROUP BY {', '.join(group)}"
    if rng.random() < 0.5:
        keys = items if group else columns
        text += " ORDER BY " + ", ".join(rng.choice(keys) + rng.choice(["", " ASC", " DESC"]) for _ in range(rng.randint(1, 2)))
    if rng.random() < 0.3:
        text += f" LIMIT {rng.choice([0, 1, 2, 5, 1000, 18446744073709551615])}"
    return text + ";\n"


WORDS = ["SELECT", "EXPLAIN", "INSERT", "INTO", "VALUES", "DELETE", "FROM", "WHERE", "AND", "OR", "NOT", "BETWEEN", "GROUP", "ORDER", "BY", "LIMIT"]
WORDS += ["COUNT(*)", "(", ")", ",", "*", ";"]
WORDS += ["--", "\n", "\r", "\0", "<", "=", "-", "x", "t", "'", "18446744073709551616", "(" * 70, "NOT " * 70, "x = 1 OR " * 70, "x," * 9, "\x80"]


def damaged_script(rng, script):
    script = bytearray(script)
    for _ in range(rng.randint(1, 4)):
        at = rng.randrange(len(script) + 1)
        kind = rng.randrange(6)
        if kind == 0:
            script[at:at] = rng.choice(WORDS).encode("latin-1")
        elif kind == 1:
            script[at:at] = bytes([rng.randrange(256)])
        elif kind == 2 and at < len(script):
            script[at] = rng.randrange(256)
        elif kind == 3:
            del script[at : at + rng.randint(1, 9)]
        elif kind == 4:
            end = rng.randrange(len(script) + 1)
            script[at:at] = script[end : end + rng.randint(1, 40)]
        elif rng.random() < 0.3:
            del script[at:]
    return bytes(script)


# ---- Damage of a file


def number_offset(rng, size):
    """Where a field of a page is likely: near the page's beginning, or where an entry or a row begins."""
    page = rng.randrange(max(1, size // PAGE)) * PAGE
    fields = [rng.randrange(32), rng.randrange(5, 32), 16 + 24 * rng.randrange(12) + rng.randrange(24)]
    near = rng.choice(fields + [rng.randrange(300), rng.randrange(PAGE)])
    return min(page + near, max(0, size - 1))


def damaged_file(rng, whole):
    data = bytearray(whole)
    for _ in range(rng.choice([1, 1, 1, 2, 3, 8])):
        pages = len(data) // PAGE
        kind = rng.randrange(12)
        if kind <= 3 and data:
            at = number_offset(rng, len(data))
            data[at] = rng.choice([0, 1, 2, 255, data[at] ^ (1 << rng.randrange(8)), (data[at] + 1) % 256, (data[at] - 1) % 256, rng.randrange(256)])
        elif kind == 4 and data:
            at = number_offset(rng, len(data)) // 4 * 4
            number = rng.choice([0, 1, 2, 3, pages - 1, pages, pages + 1, 170, 171, 16777215, 16777216, 2**31, 2**32 - 1, rng.randrange(2**32)])
            data[at : at + 4] = (number % 2**32).to_bytes(4, "big")
        elif kind == 5 and data:
            at = number_offset(rng, len(data))
            run = rng.randint(1, 40)
            data[at : at + run] = bytes(rng.randrange(256) for _ in range(run))[: len(data) - at]
        elif kind == 6 and pages > 1:
            one, other = (rng.randrange(pages) * PAGE for _ in range(2))
            held = data[one : one + PAGE]
            data[one : one + PAGE] = data[other : other + PAGE]
            data[other : other + PAGE] = held
        elif kind == 7 and pages:
            one, other = (rng.randrange(pages) * PAGE for _ in range(2))
            data[one : one + PAGE] = data[other : other + PAGE]
        elif kind == 8 and pages:
            at = rng.randrange(pages) * PAGE
            data[at : at + PAGE] = bytes(PAGE)
        elif kind == 9 and pages:
            at = rng.randrange(pages + 1) * PAGE
            put = rng.choice([bytes(PAGE), bytes(data[:PAGE]), bytes(data[max(0, at - PAGE) : max(PAGE, at)])])
            data[at:at] = put
        elif kind == 10:
            del data[rng.choice([rng.randrange(pages + 1) * PAGE, rng.randrange(len(data) + 1)]) :]
        elif kind == 11:
            data += rng.choice([bytes(PAGE), bytes(3 * PAGE), bytes(rng.randint(1, 5000)), rng.randbytes(PAGE)])
    return bytes(data)


# ---- What may be written

NAME = rb"[A-Za-z_][A-Za-z0-9_]{0,31}"
ITEM = rb"(?:COUNT\(\*\)|(?:SUM|MIN|MAX)\(" + NAME + rb"\)|" + NAME + rb")"
TITLES = re.compile(ITEM + rb"(?:," + ITEM + rb"){0,7}\Z")
ROW = re.compile(rb"(?:-?[0-9]+|NULL)(?:,(?:-?[0-9]+|NULL))*\Z")
COUNTS = re.compile(rb"-- rows ([0-9]+), pages [0-9]+\Z")
OF_A_PLACE = rb"BadByte|Syntax|NumberTooLarge|TooDeep|TooMany|UnknownTable|UnknownColumn|NotGrouped|NotSelected|ValueCount|ValueRange"
REFUSED = re.compile(rb"! (?:" + OF_A_PLACE + rb") at [0-9]+\Z")
PLAN = re.compile(rb"plan (?:empty|scan|sweep " + NAME + rb" (?:asc|desc))\Z")
SIDE = NAME + rb" -?[0-9]+\.\.-?[0-9]+"
BOX = re.compile(rb"box " + SIDE + rb"(?:, " + SIDE + rb"){0,3}\Z")
OF_A_PAGE = rb"WrongKind|OldFormat|Unclean|BadCount|BadName|BadRow|BadOrder|OutOfRegion|BadPadding"
CHANGED = re.compile(rb"-- (?:inserted|deleted) [0-9]+\Z")
FAULT = re.compile(rb"! (?:NoPage|BadSize|Full|(?:" + OF_A_PAGE + rb") page [0-9]+)\Z")
CHANGES = re.compile(rb"insert|delete", re.IGNORECASE)


def explained(lines, at):
    """The line after the text of an EXPLAIN that begins at this one, or None."""
    wanted = [PLAN, re.compile(rb"cover (?:exact|partial|wide)\Z"), re.compile(rb"filter (?:yes|no)\Z")]
    for pattern in wanted:
        if at >= len(lines) or not pattern.match(lines[at]):
            return None
        at += 1
    while at < len(lines) and BOX.match(lines[at]):
        at += 1
    for pattern in (re.compile(rb"points [0-9]+\Z"), re.compile(rb"regions [0-9]+ of [0-9]+\Z")):
        if at >= len(lines) or not pattern.match(lines[at]):
            return None
        at += 1
    return at


def answered(lines, at):
    """The line after the text of an answer whose titles are this one, or None."""
    if not TITLES.match(lines[at]):
        return None
    width = lines[at].count(b",") + 1
    first = at = at + 1
    while at < len(lines) and ROW.match(lines[at]) and lines[at].count(b",") + 1 == width:
        at += 1
    counts = COUNTS.match(lines[at]) if at < len(lines) else None
    return at + 1 if counts and int(counts[1]) == at - first else None


def judged(text):
    """Of whole texts: how many statements are answered, how many refused, and the line of a fault, or None; else None."""
    if text and not text.endswith(b"\n"):
        return None
    lines = text.split(b"\n")[:-1]
    at = done = refused = 0
    while at < len(lines):
        if REFUSED.match(lines[at]):
            refused += 1
            at += 1
        elif CHANGED.match(lines[at]):
            done += 1
            at += 1
        elif FAULT.match(lines[at]):
            return (done, refused, lines[at]) if at + 1 == len(lines) else None
        else:
            after = explained(lines, at) if lines[at].startswith(b"plan ") else answered(lines, at)
            if after is None:
                return None
            done += 1
            at = after
    return done, refused, None


# ---- The decoder: what docs/FORMATS.md says of the pages, apart from the program

KEYWORDS = b"SELECT EXPLAIN FROM WHERE AND OR NOT BETWEEN GROUP ORDER BY ASC DESC LIMIT COUNT SUM MIN MAX INSERT INTO VALUES DELETE".split()
WORD = re.compile(rb"[A-Za-z_][A-Za-z0-9_]{0,31}\Z")


class Fault(Exception):
    """A file is refused: the word, and the page or None."""

    def line(self):
        word, page = self.args
        return f"! {word}\n" if page is None else f"! {word} page {page}\n"


class Header:
    """The page 0 of a table of format 3, or a Fault."""

    def __init__(self, page):
        if page[:4] != b"UBTR" or page[4] not in (1, 2, 3):
            raise Fault("WrongKind", 0)
        if page[4] != 3:
            raise Fault("OldFormat", 0)
        if page[5] == 1:
            raise Fault("Unclean", 0)
        self.dims, self.measures, self.page_rows, self.signed = page[6:10]
        self.next, self.rows, self.regions, self.root, self.levels = (number_at(page, at) for at in range(12, 32, 4))
        ranges = (1 <= self.dims <= 4, self.measures <= 4, 2 <= self.page_rows <= 64, self.signed < 2**self.dims)
        counts = (1 <= self.next <= TOP_NUMBER + 1, self.rows < self.next, self.regions >= 1, self.root >= 1, 1 <= self.levels <= LEVELS)
        if page[5] != 0 or not all(ranges) or not all(counts):
            raise Fault("BadCount", 0)
        names = []
        for at in range(32, 32 + 33 * (1 + self.dims + self.measures), 33):
            name = bytes(page[at + 1 : at + 1 + page[at]])
            if page[at] > 32 or not WORD.match(name) or name.upper() in KEYWORDS or any(page[at + 1 + page[at] : at + 33]):
                raise Fault("BadName", 0)
            names.append(name.decode())
        self.name, self.columns = names[0], names[1:]
        if len(set(self.columns)) != len(self.columns):
            raise Fault("BadName", 0)
        if any(page[10:12]) or any(page[32 + 33 * len(names) :]):
            raise Fault("BadPadding", 0)
        self.last = last_address(self.dims)

    def value(self, i, coordinate):
        return coordinate - HALF if self.signed >> i & 1 else coordinate


def ascend(keys):
    return all(one < other for one, other in zip(keys, keys[1:]))


def index_of(head, number, page, level, first, end):
    """The entries of a page of the index: the key and the page of each; or a Fault."""
    if page[0] != ord("I"):
        raise Fault("WrongKind", number)
    count = number_at(page, 2, 2)
    if not 1 <= page[1] <= LEVELS or not 1 <= count <= ENTRIES:
        raise Fault("BadCount", number)
    entries = entries_on(page)
    keys = [key for key, _ in entries]
    if any(key[0] > head.last or key[1] > TOP_NUMBER or below == 0 for key, below in entries):
        raise Fault("BadRow", number)
    if not ascend(keys):
        raise Fault("BadOrder", number)
    if any(page[4:16]) or any(page[16 + 24 * count :]):
        raise Fault("BadPadding", number)
    if page[1] != level:
        raise Fault("BadCount", number)
    if keys[0] != first or end is not None and keys[-1] >= end:
        raise Fault("OutOfRegion", number)
    return entries


def region_of(head, number, page, first, end):
    """The rows of a region's page: the number and the values of each; or a Fault."""
    if page[0] != ord("R"):
        raise Fault("WrongKind", number)
    count, dims, measures = page[3], head.dims, head.measures
    if (page[1], page[2]) != (dims, measures) or count > head.page_rows:
        raise Fault("BadCount", number)
    here = key_at(page, 4)
    numbers = [number_at(page, 24 + 4 * i) for i in range(count)]
    if here[0] > head.last or here[1] > TOP_NUMBER or not all(1 <= n <= TOP_NUMBER for n in numbers):
        raise Fault("BadRow", number)
    points = [[number_at(page, 24 + 4 * (count * (1 + d) + i)) for d in range(dims)] for i in range(count)]
    at = 24 + 4 * count * (1 + dims)
    values = [[struct.unpack_from(">q", page, at + 8 * (count * m + i))[0] for m in range(measures)] for i in range(count)]
    keys = [(address(point), n) for point, n in zip(points, numbers)]
    if not ascend(keys):
        raise Fault("BadOrder", number)
    if keys and keys[0] < here:
        raise Fault("OutOfRegion", number)
    if any(page[at + 8 * count * measures :]):
        raise Fault("BadPadding", number)
    if here != first or keys and end is not None and keys[-1] >= end:
        raise Fault("OutOfRegion", number)
    return [(n, tuple(head.value(i, c) for i, c in enumerate(point)) + tuple(more)) for n, point, more in zip(numbers, points, values)]


class Decoded:
    """A sound table file: its header, the pages of its index (the page, its level, its entries), those of its regions (the page, its
    rows), and all rows; or the first Fault on the way."""

    def __init__(self, whole):
        if len(whole) % PAGE:
            raise Fault("BadSize", None)
        self.pages = [whole[at : at + PAGE] for at in range(0, len(whole), PAGE)]
        self.head = Header(self.page(0))
        self.index, self.regions, self.met = [], [], set()
        self.walk(self.head.root, self.head.levels, ORIGIN, None)
        self.rows = [row for _, rows in self.regions for row in rows]
        if (len(self.regions), len(self.rows)) != (self.head.regions, self.head.rows):
            raise Fault("BadCount", 0)

    def page(self, number):
        if number >= len(self.pages):
            raise Fault("NoPage", None)
        return self.pages[number]

    def walk(self, number, level, first, end):
        if level == 0:
            return self.take(number, first, end)
        entries = index_of(self.head, number, self.page(number), level, first, end)
        self.index.append((number, level, entries))
        ends = [key for key, _ in entries[1:]] + [end]
        for (key, below), until in zip(entries, ends):
            self.walk(below, level - 1, key, until)

    def take(self, number, first, end):
        if len(self.regions) == self.head.regions:
            raise Fault("BadCount", 0)
        rows = region_of(self.head, number, self.page(number), first, end)
        for n, _ in rows:
            if n >= self.head.next or n in self.met:
                raise Fault("BadRow", number)
            self.met.add(n)
        self.regions.append((number, rows))

    def reached(self):
        return {0} | {number for number, _, _ in self.index} | {number for number, _ in self.regions}


def decoded(whole):
    """What stands in a file, or None; and the line that `check` must print of it."""
    try:
        table = Decoded(whole)
    except Fault as fault:
        return None, fault.line()
    return table, f"-- rows {len(table.rows)}, regions {len(table.regions)}\n"


# ---- Tables of other shapes, which this script spells


def parted(rng, things, most):
    """The same things in runs of 1 to so many."""
    at, runs = 0, []
    while at < len(things):
        size = rng.randint(1, most)
        runs.append(things[at : at + size])
        at += size
    return runs


def random_rows(rng, dims, measures, count, numbers):
    """Rows, each a number, its coordinates and its measures, in the order of their keys."""
    wide = rng.choice([2, 8, 64, 2**32])
    rows = []
    for n in numbers[:count]:
        point = [rng.randrange(wide) if rng.random() < 0.9 else rng.choice([0, 2**31 - 1, 2**31, 2**32 - 1]) for _ in range(dims)]
        rows.append((n, point, [rng.choice([rng.randrange(-99, 99), rng.randrange(-(2**63), 2**63)]) for _ in range(measures)]))
    return sorted(rows, key=key_of)


def key_of(row):
    return address(row[1]), row[0]


def random_spans(rng, rows, page_rows):
    """The rows in regions: the first key and the rows of each. A few have no row."""
    spans, first = [], ORIGIN
    for run in parted(rng, rows, page_rows) or [[]]:
        if spans:
            before, after = key_of(spans[-1][1][-1]), key_of(run[0])
            first = rng.choice([after, (before[0], before[1] + 1), after])
            if first > after or first[1] > TOP_NUMBER:
                first = after
        spans.append((first, run))
    z, n = key_of(spans[-1][1][-1]) if spans[-1][1] else ORIGIN
    if rng.random() < 0.3 and n < TOP_NUMBER:
        spans.append(((z, n + 1), []))
    return spans


def spelled(rng):
    """A table file of a random shape."""
    dims, measures, page_rows = rng.randint(1, 4), rng.randint(0, 4), rng.choice([2, 3, 8, 64])
    top = rng.choice([60, 60, 200, 5000, TOP_NUMBER])
    count = rng.choice([0, 1, 5, 40])
    numbers = rng.sample(range(1, top + 1), count)
    rows = random_rows(rng, dims, measures, count, numbers)
    spans = random_spans(rng, rows, page_rows)
    free = iter(rng.sample(range(1, 400), 399) if rng.random() < 0.1 else list(range(1, 400)))
    if rng.random() < 0.5:
        few = list(range(1, 40 + 4 * len(spans)))
        rng.shuffle(few)
        free = iter(few)
    held = {}
    below = []
    for first, run in spans:
        page = next(free)
        held[page] = region_page(dims, measures, first, run)
        below.append((first, page))
    levels, deep = 0, rng.choice([1, 1, 1, 2, 5, LEVELS])
    while levels == 0 or len(below) > 1 or levels < deep:
        levels += 1
        above = []
        for run in parted(rng, below, rng.choice([3, 8, 170]) if levels < 6 else 170):
            page = next(free)
            held[page] = index_page(levels, run)
            above.append((run[0][0], page))
        below = above
    following = rng.choice([max(numbers, default=0) + 1, max(numbers, default=0) + 1, top + 1])
    names = [b"t"] + [b"abcdefgh"[i : i + 1] for i in range(dims + measures)]
    held[0] = header_page(3, dims, measures, page_rows, rng.randrange(2**dims), (following, count, len(spans), below[0][1], levels), names)
    size = max(held) + 1 + rng.choice([0, 0, 2])
    return b"".join(held[n] if n in held else rng.choice([bytes(PAGE), rng.randbytes(PAGE), held[0]]) for n in range(size))


# ---- What is done to a sound file: each takes the random numbers, its bytes and what stands in them


def put(data, at, value):
    data[at : at + len(value)] = value


def one_off(rng, data, at, size):
    """A number is one more, or one less."""
    number = number_at(data, at, size) + rng.choice([-1, 1])
    put(data, at, (number % 256**size).to_bytes(size, "big"))


def an_entry(rng, table, above):
    """Where some entry stands, of an index page above level 1 or not, or None; and its page."""
    pages = [(number * PAGE + 16, entries) for number, level, entries in table.index if (level > 1) == above]
    places = [(at + 24 * i, below) for at, entries in pages for i, (_, below) in enumerate(entries)]
    return rng.choice(places) if places else (None, None)


def a_row(rng, table):
    """The page of some region with rows, how many it has, and one of them, or None each."""
    pages = [(number, len(rows)) for number, rows in table.regions if rows]
    number, count = rng.choice(pages) if pages else (None, None)
    return number, count, rng.randrange(count) if pages else None


def nothing(rng, data, table):
    pass


def a_cut(rng, data, table):
    del data[rng.choice([rng.randrange(len(data) // PAGE + 1) * PAGE, rng.randrange(len(data) + 1)]) :]


def some_bytes(rng, data, table):
    for _ in range(rng.choice([1, 1, 2, 5])):
        page = rng.choice(sorted(table.reached())) * PAGE
        at = page + rng.choice([rng.randrange(32), rng.randrange(300), rng.randrange(PAGE)])
        if at < len(data):
            data[at] = rng.choice([0, 1, 255, data[at] ^ (1 << rng.randrange(8)), (data[at] + 1) % 256, rng.randrange(256)])


def pages_exchanged(rng, data, table):
    one, other = (rng.choice(sorted(table.reached())) * PAGE for _ in range(2))
    held = data[one : one + PAGE]
    put(data, one, data[other : other + PAGE])
    put(data, other, held)


def an_index_page_twice(rng, data, table):
    at, _ = an_entry(rng, table, rng.random() < 0.8)
    if at is not None:
        put(data, at + 20, number_bytes(rng.choice(table.index)[0]))


def a_region_twice(rng, data, table):
    at, _ = an_entry(rng, table, False)
    put(data, at + 20, number_bytes(rng.choice(table.regions)[0]))


def a_region_copied(rng, data, table):
    """A region's page stands for another one's too, under that one's first key."""
    (one, _), (other, _) = rng.choice(table.regions), rng.choice(table.regions)
    held = data[other * PAGE + 4 : other * PAGE + 24]
    put(data, other * PAGE, data[one * PAGE : (one + 1) * PAGE])
    put(data, other * PAGE + 4, held)


def a_number_twice(rng, data, table):
    page, _, i = a_row(rng, table)
    if page is not None:
        put(data, page * PAGE + 24 + 4 * i, number_bytes(rng.choice(table.rows)[0]))


def a_number_at_the_next(rng, data, table):
    page, _, i = a_row(rng, table)
    if page is not None:
        number = rng.choice([table.head.next, table.head.next, table.head.next - 1, table.head.next + 1, 0, TOP_NUMBER, TOP_NUMBER + 1])
        put(data, page * PAGE + 24 + 4 * i, number_bytes(number))


def a_header_count(rng, data, table):
    one_off(rng, data, *rng.choice([(4, 1), (5, 1), (6, 1), (7, 1), (8, 1), (9, 1)] + 3 * [(12, 4), (16, 4), (20, 4), (24, 4), (28, 4)]))


def a_total(rng, data, table):
    """The next number, the rows or the regions of the header are one more, or one less."""
    one_off(rng, data, rng.choice([12, 16, 20]), 4)


def garbage(rng, data, table):
    """In all pages that no entry leads to, and in some behind the end."""
    data += rng.randbytes(PAGE * rng.choice([0, 1, 3]))
    for number in set(range(len(data) // PAGE)) - table.reached():
        put(data, number * PAGE, rng.choice([rng.randbytes(PAGE), data[:PAGE], b"\xff" * PAGE]))


def an_entry_key(rng, data, table):
    at, _ = an_entry(rng, table, rng.random() < 0.4)
    if at is not None:
        one_off(rng, data, *rng.choice([(at, 16), (at + 16, 4)]))


def a_key_of_another(rng, data, table):
    """An entry has the key of another one, or nearly."""
    (one, _), (other, _) = an_entry(rng, table, rng.random() < 0.3), an_entry(rng, table, rng.random() < 0.3)
    if one is not None and other is not None:
        put(data, one, data[other : other + 20])
        if rng.random() < 0.5:
            one_off(rng, data, one + 16, 4)


def a_late_end(rng, data, table):
    """The last entry of a page of the index has the first key of the next page of its level, or nearly."""
    due = rng.choice([1, 1, 2])
    pages = [one for one in table.index if one[1] == due]
    if len(pages) > 1:
        i = rng.randrange(len(pages) - 1)
        z, n = pages[i + 1][2][0][0]
        put(data, pages[i][0] * PAGE + 16 + 24 * (len(pages[i][2]) - 1), key_bytes((z, n + rng.choice([0, 0, 1]))))


def an_uncounted_region(rng, data, table):
    """The header counts one region less, and the last one's page isn't one: it isn't looked at."""
    if len(table.regions) > 1:
        put(data, 20, number_bytes(table.head.regions - 1))
        put(data, table.regions[-1][0] * PAGE, rng.choice([bytes(PAGE), rng.randbytes(PAGE), b"R" + bytes(PAGE - 1)]))


def a_first_key(rng, data, table):
    """A region begins with another key; where it isn't so in its entry alone, the entry says it too."""
    place, below = an_entry(rng, table, False)
    at = below * PAGE + 4
    one_off(rng, data, *rng.choice([(at, 16), (at + 16, 4)]))
    if rng.random() < 0.7:
        put(data, place, data[at : at + 20])


def a_page_count(rng, data, table):
    if rng.random() < 0.5:
        one_off(rng, data, rng.choice(table.index)[0] * PAGE + 2, 2)
    else:
        one_off(rng, data, rng.choice(table.regions)[0] * PAGE + 3, 1)


def a_coordinate(rng, data, table):
    page, count, i = a_row(rng, table)
    if page is not None:
        one_off(rng, data, page * PAGE + 24 + 4 * (count * (1 + rng.randrange(table.head.dims)) + i), 4)


def measures(rng, data, table):
    """All measures of a region are others: the file is as sound as before."""
    page, count, _ = a_row(rng, table)
    if page is not None:
        size = 8 * count * table.head.measures
        put(data, page * PAGE + 24 + 4 * count * (1 + table.head.dims), rng.randbytes(size))


def another_next(rng, data, table):
    """The next number is a greater one: the file is as sound as before."""
    put(data, 12, number_bytes(rng.choice([TOP_NUMBER + 1, rng.randint(table.head.next, TOP_NUMBER + 1)])))


def a_row_left_out(rng, data, table):
    """A row is taken out of its region, or of the header's count, or of both."""
    page, count, i = a_row(rng, table)
    if page is None:
        return
    kind = rng.randrange(3)
    if kind != 0:
        data[page * PAGE + 3] -= 1
        body, at = bytes(data[page * PAGE + 24 : (page + 1) * PAGE]), 0
        kept = b""
        for size in [4] * (1 + table.head.dims) + [8] * table.head.measures:
            kept += body[at : at + size * i] + body[at + size * (i + 1) : at + size * count]
            at += size * count
        put(data, page * PAGE + 24, kept + bytes(PAGE - 24 - len(kept)))
    if kind != 1:
        put(data, 16, number_bytes(table.head.rows - 1))


def a_region_left_out(rng, data, table):
    """The last entry of a page of the index isn't there, and often isn't counted."""
    number, level, entries = rng.choice(table.index)
    last = number * PAGE + 16 + 24 * (len(entries) - 1)
    put(data, number * PAGE + 2, struct.pack(">H", len(entries) - 1))
    put(data, last, bytes(24))
    if rng.random() < 0.7 and level == 1:
        put(data, 20, number_bytes(max(1, table.head.regions - 1)))
        if rng.random() < 0.7:
            rows = dict(table.regions)[entries[-1][1]]
            put(data, 16, number_bytes(table.head.rows - len(rows)))


AIMED = [nothing, a_cut, some_bytes, pages_exchanged, an_index_page_twice, a_region_twice, a_region_copied, a_number_twice, a_number_at_the_next]
AIMED += [a_header_count, a_total, garbage, an_entry_key, a_key_of_another, a_first_key, a_page_count, a_coordinate, measures, another_next]
AIMED += [a_row_left_out, a_region_left_out, a_late_end, an_uncounted_region]


def aimed(rng, whole, table):
    """The file with one or several things done to it, and their names."""
    data, names = bytearray(whole), []
    for _ in range(rng.choice([1, 1, 1, 1, 2, 3])):
        what = rng.choice(AIMED)
        if len(data) >= len(whole):
            what(rng, data, table)
            names.append(what.__name__)
    return bytes(data), names


# ---- Scripts on a list of rows: each statement is its text, and what it answers


class Plain:
    """A table as a list of its rows, and what it was asked."""

    def __init__(self, rng, table):
        self.rng, self.head = rng, table.head
        self.rows, self.next = sorted(table.rows), table.head.next
        self.script, self.wanted, self.is_full, self.changes = "", [], False, False

    def pick(self, i):
        """A number to compare a column with, often one that stands there."""
        if self.rows and self.rng.random() < 0.8:
            return self.rng.choice(self.rows)[1][i] + self.rng.choice([0, 0, -1, 1])
        return self.rng.choice([0, 1, 2, 7, -1, 2**31 - 1, -(2**31), 2**32 - 1, 2**32, 2**63, -(2**63), 2**64 - 1])

    def condition(self, depth):
        """The text of a condition, and the function that says whether it holds of a row's values."""
        if depth == 0 or self.rng.random() < 0.3:
            near = range(self.head.dims) if self.rng.random() < 0.7 else range(len(self.head.columns))
            i = self.rng.choice(near)
            name = self.head.columns[i]
            if self.rng.random() < 0.5:
                low, high = self.pick(i), self.pick(i)
                if self.rng.random() < 0.9:
                    low, high = min(low, high), max(low, high)
                return f"{name} BETWEEN {low} AND {high}", lambda row: low <= row[i] <= high
            sign, value = self.rng.choice(list(OPERATORS)), self.pick(i)
            return f"{name} {sign} {value}", lambda row: OPERATORS[sign](row[i], value)
        if self.rng.random() < 0.15:
            text, holds = self.condition(depth - 1)
            return f"NOT ({text})", lambda row: not holds(row)
        (one, holds), (other, too) = self.condition(depth - 1), self.condition(depth - 1)
        if self.rng.random() < 0.6:
            return f"({one}) AND ({other})", lambda row: holds(row) and too(row)
        return f"({one}) OR ({other})", lambda row: holds(row) or too(row)

    def where(self):
        """The text of WHERE, or none, and the rows that are selected."""
        if self.rng.random() < 0.25:
            return "", list(self.rows)
        text, holds = self.condition(self.rng.randint(0, 3))
        return f" WHERE {text}", [row for row in self.rows if holds(row[1])]

    def ordered(self, lines, keys, place):
        """The text of ORDER BY, or none, and the lines in that order, of which `place` has the value of each key."""
        if not keys or self.rng.random() < 0.4:
            return "", lines
        chosen = [(key, self.rng.choice(["", " ASC", " DESC"])) for key in self.rng.choices(keys, k=self.rng.randint(1, 2))]
        for key, turn in reversed(chosen):
            lines = sorted(lines, key=lambda line: place(line, key), reverse=turn == " DESC")
        return " ORDER BY " + ", ".join(key + turn for key, turn in chosen), lines

    def limit(self, lines):
        if self.rng.random() < 0.7:
            return "", lines
        most = self.rng.choice([0, 1, 3, 1000])
        return f" LIMIT {most}", lines[:most]

    def asks(self, titles, where, group, order, limit, lines):
        self.script += f"SELECT {', '.join(titles)} FROM {self.head.name}{where}{group}{order}{limit};\n"
        cells = [",".join("NULL" if cell is None else str(cell) for cell in line) for line in lines]
        told = self.head.columns if titles == ["*"] else titles
        self.wanted += [",".join(told)] + cells + [f"-- rows {len(lines)}, pages "]

    def ask_rows(self):
        columns = self.head.columns
        where, rows = self.where()
        order, rows = self.ordered(rows, columns, lambda row, key: row[1][columns.index(key)])
        limit, rows = self.limit(rows)
        titles = ["*"] if self.rng.random() < 0.4 else self.rng.choices(columns, k=self.rng.randint(1, 4))
        places = range(len(columns)) if titles == ["*"] else [columns.index(title) for title in titles]
        self.asks(titles, where, "", order, limit, [[row[1][i] for i in places] for row in rows])

    def cell(self, title, rows):
        """An aggregate, or a column of the groups, of a group's rows."""
        if title == "COUNT(*)":
            return len(rows)
        what, _, name = title.rpartition("(")
        values = [row[1][self.head.columns.index(name.rstrip(")"))] for row in rows]
        if not values:
            return None
        return AGGREGATES[what](values) if what else values[0]

    def ask_groups(self):
        columns = self.head.columns
        where, rows = self.where()
        by = self.rng.choices(columns, k=self.rng.randint(1, 2)) if self.rng.random() < 0.6 else []
        groups = {} if by else {(): rows}
        for row in rows if by else []:
            groups.setdefault(tuple(row[1][columns.index(name)] for name in by), []).append(row)
        titles = self.rng.sample(by, self.rng.randint(0, len(by)))
        for _ in range(self.rng.randint(0 if titles else 1, 3)):
            titles.append(aggregate(self.rng, columns))
        lines = [[self.cell(title, groups[group]) for title in titles] for group in sorted(groups)]
        order, lines = self.ordered(lines, titles, lambda line, key: line[titles.index(key)])
        limit, lines = self.limit(lines)
        self.asks(titles, where, " GROUP BY " + ", ".join(by) if by else "", order, limit, lines)

    def insert(self):
        head, values = self.head, []
        for i in range(len(head.columns)):
            least, most = (-(2**63), 2**63 - 1) if i >= head.dims else (head.value(i, 0), head.value(i, 2**32 - 1))
            values.append(min(max(self.pick(i), least), most))
        self.script += f"INSERT INTO {head.name} VALUES ({', '.join(map(str, values))});\n"
        if self.next > TOP_NUMBER:
            self.wanted.append("! Full")
            self.is_full = True
            return
        self.wanted.append(f"-- inserted {self.next}")
        self.rows.append((self.next, tuple(values)))
        self.next += 1
        self.changes = True

    def delete(self):
        where, rows = self.where()
        self.script += f"DELETE FROM {self.head.name}{where};\n"
        self.wanted.append(f"-- deleted {len(rows)}")
        gone = {number for number, _ in rows}
        self.rows = [row for row in self.rows if row[0] not in gone]
        self.changes = self.changes or bool(rows)

    def ask(self):
        """A random script; what comes after a fault is nothing."""
        changing = self.rng.random() < 0.4
        for _ in range(self.rng.randint(2, 6)):
            kinds = [self.ask_rows, self.ask_rows, self.ask_groups] + ([self.insert, self.insert, self.delete] if changing else [])
            if not self.is_full:
                self.rng.choice(kinds)()

    def wrong(self, ended):
        """What is wrong with what the script wrote, or None."""
        if ended.status != (3 if self.is_full else 0):
            return f"on a sound file the script ended with status {ended.status}"
        lines = ended.text.decode("latin-1").split("\n")
        if lines.pop() or len(lines) != len(self.wanted):
            return f"{len(lines)} lines were written, not {len(self.wanted)}"
        for line, wanted in zip(lines, self.wanted):
            told = line.rstrip("0123456789") if wanted.endswith("pages ") else line
            if told != wanted:
                return f"a line is {line!r}, not {wanted!r}"
        return None


# ---- A case


def bytes_of(path):
    with open(path, "rb") as file:
        return file.read()


def write(path, content):
    with open(path, "wb") as file:
        file.write(content)


class Table:
    def __init__(self, program, work, name, dims, page_rows, signed, header, rows):
        self.columns = header.split(",")
        self.data = os.path.join(work, name + ".csv")
        self.words = ["--dims", str(dims), "--page-rows", str(page_rows), "--signed", str(signed)]
        with open(self.data, "w", encoding="ascii") as file:
            file.write(data_of(header, rows))
        loaded = os.path.join(work, name + ".ub")
        subprocess.run([program, "load", self.data, loaded] + self.words, check=True, stdout=subprocess.DEVNULL)
        self.whole = bytes_of(loaded)
        # The same after some changes, which leave pages that nothing uses.
        script, rng = os.path.join(work, name + ".sql"), random.Random(name)
        with open(script, "w", encoding="ascii") as file:
            file.writelines(change(rng, self.columns) for _ in range(40))
        subprocess.run([program, "run", loaded, script], check=False, stdout=subprocess.DEVNULL)
        self.changed = bytes_of(loaded)


class Ended:
    def __init__(self, words):
        try:
            ended = subprocess.run(words, capture_output=True, stdin=subprocess.DEVNULL, timeout=SECONDS)
            self.status, self.text, self.told = ended.returncode, ended.stdout, ended.stderr
        except subprocess.TimeoutExpired:
            self.status, self.text, self.told = None, b"", b""


def wrong(ended):
    """What is wrong with how the program ended, or None; and how it ended."""
    if ended.status is None:
        return f"it didn't end within {SECONDS} seconds", None
    if ended.status < 0:
        return f"it ended by signal {-ended.status}", None
    if ended.status not in (0, 1, 3):
        return f"its status is {ended.status}", None
    if ended.told:
        return "something stands on standard error", None
    what = judged(ended.text)
    if what is None:
        return "what it wrote isn't whole texts and one line", None
    _, refused, fault = what
    if (ended.status == 3) != (fault is not None):
        return f"its status is {ended.status}, and the line of a fault is {fault}", None
    if ended.status != 3 and (ended.status == 1) != (refused > 0):
        return f"its status is {ended.status}, and {refused} statements are refused", None
    return None, fault.split(b" page ")[0].decode() if fault else f"status {ended.status}"


class Tally:
    """What was counted."""

    def __init__(self):
        self.ends, self.checks, self.plain = collections.Counter(), collections.Counter(), collections.Counter()


def checked(program, path, whole, tally):
    """What is wrong with what `check` prints of a file that has these bytes, or None; and the table that it holds, or None."""
    table, line = decoded(whole)
    ended = Ended([program, "check", path])
    tally.checks[line.split(" page ")[0].strip("! \n") if table is None else "yes"] += 1
    if (ended.text, ended.status, ended.told) != (line.encode(), 3 if table is None else 0, b""):
        return f"`check` ends with status {ended.status} and writes {ended.text[-200:]!r} {ended.told[-200:]!r}, not {line!r}", table
    if bytes_of(path) != whole:
        return "`check` changed the file's bytes", table
    return None, table


def case(program, paths, made, rng, tally):
    """The first part of a case: what is wrong, or None; and what the program wrote."""
    table = rng.choice(made)
    script = "".join(statement(rng, table.columns) for _ in range(rng.randint(1, 5))).encode()
    if rng.random() < 0.3:
        script = damaged_script(rng, script)
    whole = damaged_file(rng, table.whole) if rng.random() < 0.85 else table.whole
    for path, content in zip(paths, (whole, script)):
        write(path, content)
    what, sound = checked(program, paths[0], whole, tally)
    ended = Ended([program, "run"] + paths)
    if what is not None:
        return what, ended
    what, how = wrong(ended)
    after = bytes_of(paths[0])
    if what is None and not CHANGES.search(script) and after != whole:
        what = "the file's bytes were changed"
    if what is None and whole == table.whole:
        other = Ended([program, "try", table.data, paths[1]] + table.words)
        if (other.status, other.text) != (ended.status, ended.text):
            what = f"`try` on the data ends with status {other.status} and writes {other.text[-200:]!r}"
    if what is None and after != whole:
        what, left = checked(program, paths[0], after, tally)
        if what is None and sound is not None and left is None and ended.status != 3:
            what = "a sound file isn't sound any more"
    tally.ends[how] += what is None
    return what, ended


def aimed_case(program, paths, made, rng, tally):
    """The second part of a case: what is wrong, or None; and what the program wrote."""
    kind, table = rng.randrange(3), rng.choice(made)
    whole = spelled(rng) if kind == 0 else table.whole if kind == 1 else table.changed
    first, line = decoded(whole)
    assert first is not None, line
    whole, names = aimed(rng, whole, first)
    write(paths[0], whole)
    what, sound = checked(program, paths[0], whole, tally)
    plain = Plain(rng, sound or first)
    plain.ask()
    write(paths[1], plain.script.encode())
    ended = Ended([program, "run"] + paths)
    if what is None:
        what = wrong(ended)[0]
    after = bytes_of(paths[0])
    if what is None and sound is not None:
        what = plain.wrong(ended)
        tally.plain["scripts"] += 1
        tally.plain["answers"] += sum(line.endswith("pages ") for line in plain.wanted)
        tally.plain["changes"] += plain.script.count("INSERT") + plain.script.count("DELETE")
    if what is None and (sound is None or not plain.changes) and "INSERT" not in plain.script and "DELETE" not in plain.script and after != whole:
        what = "the file's bytes were changed"
    if what is None and sound is not None and not plain.changes and after != whole:
        what = "the file's bytes were changed, and no row"
    if what is None and sound is not None and plain.changes:
        what, left = checked(program, paths[0], after, tally)
        if what is None and (left is None or (sorted(left.rows), left.head.next) != (sorted(plain.rows), plain.next)):
            what = "the script left other rows, or another next number"
    return what and f"{what} ({', '.join(names)})", ended


def main():
    count, seed, program = int(word(1, 2000)), word(2, "1"), program_of(3)
    tally, bad = Tally(), 0
    memory = "/dev/shm" if os.access("/dev/shm", os.W_OK) else None
    with tempfile.TemporaryDirectory(dir=memory) as work:
        made = [Table(program, work, *table) for table in tables()]
        paths = [os.path.join(work, name) for name in ("case.ub", "case.sql")]
        for number in range(1, count + 1):
            for part, words in ((case, f"{seed} {number}"), (aimed_case, f"{seed} {number} aimed")):
                what, ended = part(program, paths, made, random.Random(words), tally)
                if what is None:
                    continue
                bad += 1
                kept = tempfile.mkdtemp(prefix=f"fuzz-{seed}-{number}-")
                for path in paths:
                    shutil.copy(path, kept)
                print(f"WRONG: seed {seed}, case {number}: {what}; its files are in {kept}\n  it wrote {ended.text[-300:]!r} {ended.told[-300:]!r}")

    def told(counts):
        return ", ".join(f"{how} {times}" for how, times in sorted(counts.items()))

    print(f"scripts on damaged files ended: {told(tally.ends)}")
    print(f"check said: {told(tally.checks)}")
    print(f"on sound files: {told(tally.plain)}")
    print(f"fuzz_files.py: {2 * count - bad} right, {bad} wrong")
    return 1 if bad else 0


if __name__ == "__main__":
    sys.exit(main())
