#!/usr/bin/env python3
"""Decodes a table file of format 1, 2 or 3, and prints its header, its regions with their rows, and what leads to them: the directory of
format 1, or the index of the later ones. Of format 3, in which dimensions may be signed, it prints the values that the coordinates stand for.

    tests/old/check.py TABLE [CSV]

It stops at the first thing that breaks the format or that isn't sound: a field out of its range, a byte that no field names
and isn't zero, keys out of order, a row in the wrong region, a number that two rows have. With the CSV file that the table was
loaded from, each row must be the record of its number, and the numbers that no row has are told.
"""

import csv
import os
import re
import sys

sys.path.insert(0, os.path.dirname(os.path.dirname(os.path.abspath(__file__))))

from lib.pages import ENTRIES, LEVELS, PAGE, TOP_NUMBER
from lib.regions import HALF, ORIGIN, address, last_address, span_end

NUMBERS = TOP_NUMBER + 1


def stop_unless(condition, text):
    if not condition:
        sys.exit(f"check.py: {text}")


class Fields:
    """The bytes of a page, read one field after the other."""

    def __init__(self, pages, number):
        stop_unless(0 <= number < len(pages), f"there is no page {number}")
        self.page, self.at, self.name = pages[number], 0, f"page {number}"

    def take(self, count):
        self.at += count
        return self.page[self.at - count:self.at]

    def number(self, count, low, high):
        value = int.from_bytes(self.take(count), "big")
        stop_unless(low <= value <= high, f"{self.name}: {value} at {self.at - count} is outside {low}..{high}")
        return value

    def zeros(self, count):
        stop_unless(not any(self.take(count)), f"{self.name}: a byte before {self.at} isn't zero")

    def end(self):
        self.zeros(PAGE - self.at)


def read_header(pages):
    it = Fields(pages, 0)
    stop_unless(it.take(4) == b"UBTR", "page 0 isn't a header")
    version = it.number(1, 1, 3)
    it.number(1, 0, 0)
    head = {"format": version, "dims": it.number(1, 1, 4), "measures": it.number(1, 0, 4), "page rows": it.number(1, 2, 64)}
    head["signed"] = it.number(1, 0, (1 << head["dims"]) - 1) if version == 3 else 0
    it.zeros(2 if version == 3 else 3)
    head["next"] = it.number(4, 1, NUMBERS)
    head["rows"] = it.number(4, 0, head["next"] - 1)
    head["regions"] = it.number(4, 1, (1 << 32) - 1)
    head["root"] = it.number(4, 1, (1 << 32) - 1)
    if version == 1:
        chain = (head["regions"] + ENTRIES - 1) // ENTRIES
        head["directory pages"] = it.number(4, chain, chain)
    else:
        head["levels"] = it.number(4, 1, LEVELS)
    names = []
    for _ in range(1 + head["dims"] + head["measures"]):
        length = it.number(1, 1, 32)
        name = it.take(length)
        stop_unless(re.fullmatch(rb"[A-Za-z_][A-Za-z0-9_]*", name), f"{name} is no name")
        names.append(name.decode("ascii"))
        it.zeros(32 - length)
    it.end()
    return head, names[0], names[1:]


def read_directory(pages, head):
    """The entries of all directory pages, and the numbers of those pages."""
    entries, chain, number = [], [], head["root"]
    last = last_address(head["dims"])
    for _ in range(head["directory pages"]):
        it = Fields(pages, number)
        stop_unless(it.take(1) == b"D", f"page {number} isn't of the directory")
        it.zeros(1)
        wanted = min(ENTRIES, head["regions"] - len(entries))
        count = it.number(2, wanted, wanted)
        chain.append(number)
        number = it.number(4, 0, len(pages) - 1)
        it.zeros(8)
        for _ in range(count):
            key = it.number(16, 0, last), it.number(4, 0, TOP_NUMBER)
            entries.append((key, it.number(4, 1, len(pages) - 1)))
        it.end()
    stop_unless(number == 0, "the directory goes on past its end")
    keys = [key for key, _ in entries]
    stop_unless(keys[0] == ORIGIN and all(a < b for a, b in zip(keys, keys[1:])), "the directory's keys are out of order")
    taken = [page for _, page in entries] + chain
    stop_unless(len({*taken}) == len(taken), "the directory names a page twice")
    return entries, chain


def read_index(pages, head):
    """The entries of all leaves of the index, and the numbers of its pages, each before those that it names."""
    entries, own = [], []
    last = last_address(head["dims"])
    ways = [(head["root"], head["levels"], ORIGIN, None)]
    while ways:
        number, level, first, after = ways.pop()
        it = Fields(pages, number)
        stop_unless(it.take(1) == b"I", f"page {number} isn't of the index")
        it.number(1, level, level)
        count = it.number(2, 1, ENTRIES)
        it.zeros(12)
        own.append(number)
        here = [((it.number(16, 0, last), it.number(4, 0, TOP_NUMBER)), it.number(4, 1, len(pages) - 1)) for _ in range(count)]
        it.end()
        keys = [key for key, _ in here]
        stop_unless(keys[0] == first and all(a < b for a, b in zip(keys, keys[1:])), f"page {number}: the keys are out of order")
        stop_unless(after is None or keys[-1] < after, f"page {number}: a key isn't before the next page's")
        if level == 1:
            entries += here
        else:
            ends = keys[1:] + [after]
            ways += [(page, level - 1, key, end) for (key, page), end in [*zip(here, ends)][::-1]]
    stop_unless(len(entries) == head["regions"], "the index has another number of regions")
    taken = [page for _, page in entries] + own
    stop_unless(len({*taken}) == len(taken), "the index names a page twice")
    return entries, own


def read_region(pages, head, number):
    """A region's first key, and its rows: number, coordinates and measures."""
    it = Fields(pages, number)
    stop_unless(it.take(1) == b"R", f"page {number} isn't a region's")
    it.number(1, head["dims"], head["dims"])
    it.number(1, head["measures"], head["measures"])
    count = it.number(1, 0, head["page rows"])
    first = it.number(16, 0, last_address(head["dims"])), it.number(4, 0, TOP_NUMBER)
    columns = [[it.number(4, 1, TOP_NUMBER) for _ in range(count)]]
    for _ in range(head["dims"]):
        columns.append([it.number(4, 0, (1 << 32) - 1) for _ in range(count)])
    for _ in range(head["measures"]):
        columns.append([int.from_bytes(it.take(8), "big", signed=True) for _ in range(count)])
    it.end()
    rows = [*zip(*columns)]
    return first, [(row[0], row[1:1 + head["dims"]], row[1 + head["dims"]:]) for row in rows]


def key_of(row):
    return address(row[1]), row[0]


def values_of(row, head):
    """The values of a row's dimensions."""
    return tuple(it - HALF if head["signed"] >> dim & 1 else it for dim, it in enumerate(row[1]))


def tell_regions(pages, head, entries):
    """Prints the regions in the order of their keys, and gives the rows of all."""
    rows = []
    for (first, page), after in zip(entries, [key for key, _ in entries[1:]] + [None]):
        on_page, here = read_region(pages, head, page)
        stop_unless(on_page == first, f"page {page} begins with another key than its entry")
        keys = [key_of(row) for row in here]
        stop_unless(keys == sorted({*keys}), f"page {page} is out of order")
        stop_unless(not keys or first <= keys[0], f"page {page} has a row of the region before")
        stop_unless(after is None or not keys or keys[-1] < after, f"page {page} has a row of the next region")
        last = span_end(after, head["dims"])
        print(f"region on page {page}, first key {first}, addresses {first[0]}..{last}, rows {len(here)}")
        for row in here:
            print(f"    {row[0]}: {' '.join(map(str, values_of(row, head) + row[2]))}, address {address(row[1])}")
        rows += here
    return rows


def compare_with_text(rows, head, columns, path):
    """Holds the rows against the records of a CSV file, and tells which numbers no row has."""
    with open(path, newline="") as it:
        header, *records = csv.reader(it)
    stop_unless([name.strip(" ") for name in header] == columns, "the CSV file has other columns")
    for row in rows:
        stop_unless([*map(int, records[row[0] - 1])] == [*values_of(row, head), *row[2]], f"row {row[0]} isn't its record")
    stop_unless(head["next"] == len(records) + 1, "the next number isn't that after the last record")
    missing = sorted({*range(1, head["next"])} - {row[0] for row in rows})
    print(f"each row is its record of {len(records)}; no row has these numbers: {' '.join(map(str, missing)) or 'none'}")


def main(table, text=None):
    with open(table, "rb") as it:
        data = it.read()
    stop_unless(data and len(data) % PAGE == 0, "it is no whole number of pages")
    pages = [data[at:at + PAGE] for at in range(0, len(data), PAGE)]
    head, name, columns = read_header(pages)
    print(f"pages {len(pages)}, table {name}, columns {' '.join(columns)}")
    print(", ".join(f"{word} {value}" for word, value in head.items()))
    what, read = ("directory", read_directory) if head["format"] == 1 else ("index", read_index)
    entries, chain = read(pages, head)
    rows = tell_regions(pages, head, entries)
    print(f"{what} on pages {' '.join(map(str, chain))}, first keys and pages:")
    for key, page in entries:
        print(f"    {key} {page}")
    unused = sorted({*range(1, len(pages))} - {*chain} - {page for _, page in entries})
    print(f"pages that nothing names: {' '.join(map(str, unused)) or 'none'}")
    numbers = [row[0] for row in rows]
    stop_unless(len({*numbers}) == len(numbers) == head["rows"], "the number of rows is another, or two have one number")
    stop_unless(all(number < head["next"] for number in numbers), "a row's number isn't below the next")
    if text is not None:
        compare_with_text(rows, head, columns, text)


if len(sys.argv) not in (2, 3):
    sys.exit(__doc__)
main(*sys.argv[1:])
