#!/usr/bin/env python3
"""Upgrades table files of formats 1 and 2 that are made here at random, byte by byte from docs/FORMATS.md, and damaged ones of them, by hand.

Of a table that is sound, `ubq upgrade` must tell its rows and regions; the file that it makes must be a clean one of format 3 with no signed
dimension and the same name, columns, counts and next number, and its index must lead to the same regions, whose pages have the same bytes; and
a script on it must give all rows, and put one in under the next number, or tell that there is none. Of a table with one thing wrong that
must be told, and what stood at the new file's path must be as it was. The old file keeps its bytes in all of these.

Some tables have no rows, full pages of 64, no number left, or 170, 171, 340, 341 and more regions: 2, 3 and more pages of a directory. Pages stand in
any order, with some between them that nothing names.

Run by hand: tests/upgrade.py [HOW MANY [SEED [PROGRAM]]]. It prints how many files were right and wrong, and of which kinds they were.
With `--transcript` as the first word it prints the files, and what the program must write of them, as a transcript for crates/transcripts, whose
program then plays them with no proved program at hand: tests/upgrade.py --transcript 30 | (cd crates/transcripts && rt try --seconds 500).
A transcript doesn't look into the new file.
"""
import os
import shutil
import subprocess
import sys
import tempfile

from lib.pages import ENTRIES, PAGE, TOP_NUMBER, directory_page, entries_on, entry_bytes, header_page, index_page
from lib.pages import number_at, number_bytes, padded, region_page
from lib.program import try_cases
from lib.regions import GREATEST, HALF, ORIGIN, address, last_address

NUMBERS = TOP_NUMBER + 1


# ---- A table: its shape, its regions, and the page of each


class Old:
    """A table of an older version: what it holds, and where each part of it stands."""

    def __init__(self, rng, version, regions, dims, measures, most, next_number, page_count, names):
        self.version, self.regions, self.dims, self.measures, self.most = version, regions, dims, measures, most
        self.next, self.names = next_number, names
        self.rows = sorted(row for _, held in regions for row in held)
        numbers = list(range(1, page_count))
        rng.shuffle(numbers)
        self.pages = [bytes(PAGE)] * page_count
        self.free = numbers
        self.entries = []
        for first, held in regions:
            page = self.free.pop()
            self.pages[page] = self.region_page(first, held)
            self.entries.append((first, page))
        self.lead(rng)
        for page in self.free:
            self.pages[page] = padded(rng.choice([b"", b"R" + bytes(30), b"D\0\0\1", rng.randbytes(64), bytes(4095) + b"x"]))
        self.pages[0] = self.header()

    def region_page(self, first, held):
        return region_page(self.dims, self.measures, first, held)

    def lead(self, rng):
        """Writes what leads to the regions: the chain of a directory, or an index whose pages have any number of entries."""
        if self.version == 1:
            parts = [self.entries[at : at + ENTRIES] for at in range(0, len(self.entries), ENTRIES)]
            self.own = [self.free.pop() for _ in parts]
            for page, part, after in zip(self.own, parts, self.own[1:] + [0]):
                self.pages[page] = directory_page(part, after)
            self.root, self.levels = self.own[0], len(self.own)
            return
        level, entries, self.own = 0, self.entries, []
        while level == 0 or len(entries) > 1 or (level < 3 and rng.random() < 0.2 and self.free):
            level += 1
            above = []
            while entries:
                many = min(len(entries), rng.choice([ENTRIES, ENTRIES, rng.randint(60, ENTRIES)]))
                part, entries = entries[:many], entries[many:]
                page = self.free.pop()
                self.own.append(page)
                self.pages[page] = index_page(level, part)
                above.append((part[0][0], page))
            entries = above
        self.root, self.levels = entries[0][1], level

    def header(self):
        numbers = self.next, len(self.rows), len(self.regions), self.root, self.levels
        return header_page(self.version, self.dims, self.measures, self.most, 0, numbers, self.names)

    def whole(self):
        return b"".join(self.pages)

    def counts(self):
        return f"-- rows {len(self.rows)}, regions {len(self.regions)}\n"


def key_of(row):
    """The key of a row: of its number, its point and its values."""
    return address(row[1]), row[0]


def table(rng, version, kind):
    """A table of this kind."""
    dims, measures = rng.randint(1, 4), rng.randint(0, 4)
    most = 64 if kind == "full pages" else rng.choice([2, 2, 3, 4, 8, 64])
    count = {"no rows": 0, "many regions": rng.choice([170, 171, 340, 341, 511]), "full pages": rng.randint(1, 6)}.get(kind, rng.randint(1, 12))
    widths = [most if kind == "full pages" else rng.randint(0, most) for _ in range(count)]
    total = sum(widths)
    next_number = NUMBERS if kind == "no number left" else total + 1 + rng.choice([0, 0, 1, rng.randrange(1000)])
    numbers = rng.sample(range(1, next_number), total)
    most_of = rng.choice([4, 64, GREATEST + 1])
    rows = []
    for number in numbers:
        point = tuple(rng.choice([rng.randrange(most_of), rng.choice([0, 1, HALF, GREATEST])]) for _ in range(dims))
        rows.append((number, point, tuple(rng.choice([rng.randrange(-99, 99), -(2**63), 2**63 - 1]) for _ in range(measures))))
    rows.sort(key=key_of)
    names = [rng.choice([b"t", b"T_9", b"a" * 32])] + [b"xyzw"[i : i + 1] for i in range(dims)] + [b"klmn"[i : i + 1] for i in range(measures)]
    regions = regions_of(rng, rows, widths, last_address(dims))
    index = 3 + len(regions) // 20 if version == 2 else len(regions) // ENTRIES + 1
    return Old(rng, version, regions, dims, measures, most, next_number, 1 + len(regions) + index + rng.choice([0, 0, 1, 3]), names)


def regions_of(rng, rows, widths, last):
    """Regions of so many rows each: a first key stands behind the row before it, and not behind the row at which it begins."""
    regions, before = [], None
    for width in widths:
        held, rows = rows[:width], rows[width:]
        after = key_of(rows[0]) if rows else (last, NUMBERS - 1)
        low = ORIGIN if before is None else before
        high = key_of(held[0]) if held else after
        near = [high, (high[0], 0), (low[0] + 1, 0), (low[0], low[1] + 1)]
        firsts = [key for key in near if low < key <= high and key[0] <= last and key[1] < NUMBERS]
        if before is not None and not firsts:
            regions[-1] = regions[-1][0], regions[-1][1] + held
        else:
            regions.append((ORIGIN if before is None else rng.choice(firsts), held))
        before = key_of(held[-1]) if held else regions[-1][0]
    return regions or [(ORIGIN, [])]


# ---- Damages: one thing that is wrong, and what must be told of it


def damages(rng, old):
    """Each damage that this table can have: its name, the file, and the line."""
    whole = old.whole()

    def put(at, data):
        return whole[:at] + data + whole[at + len(data) :]

    def number(at, value):
        return put(at, number_bytes(value))

    yield "first byte", put(0, b"V"), "WrongKind page 0"
    yield "version", put(4, bytes([rng.choice([0, 3, 4, 255])])), "WrongKind page 0"
    yield "state 1", put(5, b"\1"), "Unclean page 0"
    yield "state 2", put(5, b"\2"), "BadCount page 0"
    yield "state and mask", put(5, b"\1\1\0\0\1"), "Unclean page 0"
    yield "dimensions", put(6, b"\5"), "BadCount page 0"
    yield "rows on a page", put(8, b"\101"), "BadCount page 0"
    yield "mask", put(9, b"\1"), "BadPadding page 0"
    yield "padding", put(rng.choice([10, 11, 4095]), b"\1"), "BadPadding page 0"
    yield "next 0", number(12, 0), "BadCount page 0"
    yield "next too high", number(12, NUMBERS + 1), "BadCount page 0"
    yield "as many rows as next", number(16, old.next), "BadCount page 0"
    if len(old.rows) + 1 < old.next:
        yield "a row too many counted", number(16, len(old.rows) + 1), "BadCount page 0"
    if old.rows:
        yield "a row too few counted", number(16, len(old.rows) - 1), "BadCount page 0"
    yield "no regions", number(20, 0), "BadCount page 0"
    yield "root 0", number(24, 0), "BadCount page 0"
    yield "root past the end", number(24, len(old.pages)), "NoPage"
    yield "root is a region", number(24, old.entries[0][1]), f"WrongKind page {old.entries[0][1]}"
    yield "name", put(33, b"9"), "BadName page 0"
    yield "name's end", put(64 if len(old.names[0]) < 32 else 65, b"\41"), "BadName page 0"
    yield "no page", b"", "NoPage"
    yield "cut within a page", whole[: -rng.randrange(1, PAGE)], "BadSize"
    yield "cut to the header", whole[:PAGE], "NoPage"
    yield from damages_of_entries(rng, old, put, number)
    yield from damages_of_regions(rng, old, put)
    yield from damages_of_directory(rng, old, put, number) if old.version == 1 else damages_of_index(rng, old, put, number)


def damages_of_entries(rng, old, put, number):
    """What can be wrong with the entries of a page that leads to regions."""
    first, page = rng.choice(old.entries)
    spelled = entry_bytes(first, page)
    own = next(it for it in old.own if spelled in old.pages[it][16:] and (old.pages[it][0] == 0x44 or old.pages[it][1] == 1))
    at = own * PAGE + old.pages[own].index(spelled, 16)
    yield "entry of page 0", number(at + 20, 0), f"BadRow page {own}"
    yield "entry past the end", number(at + 20, len(old.pages)), "NoPage"
    yield "entry of its own page", number(at + 20, own), f"WrongKind page {own}"
    if len(old.entries) > 1:
        other = rng.choice([it for it in old.entries if it[1] != page])[1]
        yield "entry of another region", number(at + 20, other), f"OutOfRegion page {other}"
    yield "number in a key", put(at + 16, b"\1"), f"BadRow page {own}"
    if old.dims < 4:
        yield "address in a key", put(at, b"\1"), f"BadRow page {own}"
    if at != own * PAGE + 16:
        yield "key of the entry before", put(at, old.pages[own][at % PAGE - 24 :][:20]), f"BadOrder page {own}"
    yield "count of entries 0", put(own * PAGE + 2, b"\0\0"), f"BadCount page {own}"
    yield "count of entries 171", put(own * PAGE + 2, b"\0\253"), f"BadCount page {own}"
    yield "kind of what leads", put(own * PAGE, b"R"), f"WrongKind page {own}"
    is_whole = number_at(old.pages[own], 2, 2) == ENTRIES
    yield "padding of what leads", put(own * PAGE + rng.choice([8, 15, 9 if is_whole else PAGE - 1]), b"\1"), f"BadPadding page {own}"


def damages_of_regions(rng, old, put):
    """What can be wrong with a region's page."""
    place = rng.randrange(len(old.regions))
    (first, held), page = old.regions[place], old.entries[place][1]
    at = page * PAGE
    yield "kind of a region", put(at, b"I"), f"WrongKind page {page}"
    yield "dimensions of a region", put(at + 1, bytes([old.dims % 4 + 1])), f"BadCount page {page}"
    yield "measures of a region", put(at + 2, bytes([(old.measures + 1) % 5])), f"BadCount page {page}"
    yield "too many rows", put(at + 3, bytes([old.most + 1])), f"BadCount page {page}"
    yield "padding of a region", put(at + PAGE - 1, b"\1"), f"BadPadding page {page}"
    if first[1] + 1 < NUMBERS and (not held or (first[0], first[1] + 1) <= key_of(held[0])):
        yield "another first key", put(at + 20, number_bytes(first[1] + 1)), f"OutOfRegion page {page}"
    if held:
        yield "row number 0", put(at + 24, bytes(4)), f"BadRow page {page}"
        yield "row number too high", put(at + 24, number_bytes(NUMBERS)), f"BadRow page {page}"
    if held:
        (_, point, _), after = held[-1], old.regions[place + 1][0] if place + 1 < len(old.regions) else None
        if old.next < NUMBERS and (after is None or (address(point), old.next) < after):
            yield "row number not below the next", put(at + 24 + 4 * (len(held) - 1), number_bytes(old.next)), f"BadRow page {page}"
        met = [row[0] for _, rows in old.regions[:place] for row in rows] + [row[0] for row in held[:-1]]
        least = max([first] + [(address(row[1]), row[0] + 1) for row in held[-2:-1]])
        met = [number for number in met if least <= (address(point), number) and (after is None or (address(point), number) < after)]
        if met:
            yield "row number that was met", put(at + 24 + 4 * (len(held) - 1), number_bytes(rng.choice(met))), f"BadRow page {page}"
    if len(held) > 1:
        rows = held[1::-1] + held[2:]
        yield "two rows exchanged", put(at, old.region_page(first, rows)), f"BadOrder page {page}"
    if held and key_of(held[0]) > first > (0, 0):
        rows = [(held[0][0], (0,) * old.dims, held[0][2])] + held[1:]
        if (0, held[0][0]) < first:
            yield "a row before its region", put(at, old.region_page(first, rows)), f"OutOfRegion page {page}"
    if place + 1 < len(old.regions) and len(held) < old.most:
        (number, point, values), after = (rng.choice(range(1, NUMBERS)), (GREATEST,) * old.dims, (0,) * old.measures), old.regions[place + 1][0]
        if (address(point), number) >= after:
            yield "a row of a later region", put(at, old.region_page(first, held + [(number, point, values)])), f"OutOfRegion page {page}"


def damages_of_directory(rng, old, put, number):
    root, last = old.own[0] * PAGE, old.own[-1] * PAGE
    yield "pages of the directory", number(28, old.levels + 1), "BadCount page 0"
    if len(old.regions) % ENTRIES:
        yield "a region too many counted", number(20, len(old.regions) + 1), f"BadCount page {old.own[-1]}"
    if len(old.regions) % ENTRIES > 1:
        yield "a region too few counted", number(20, len(old.regions) - 1), f"BadCount page {old.own[-1]}"
    yield "chain that goes on", number(last + 4, old.own[0]), f"BadCount page {old.own[-1]}"
    if old.levels > 1:
        yield "chain that ends early", number(root + 4, 0), f"BadCount page {old.own[0]}"
        yield "chain past the end", number(root + 4, len(old.pages)), "NoPage"
        yield "chain into a region", number(root + 4, old.entries[0][1]), f"WrongKind page {old.entries[0][1]}"
        yield "later part that begins as the first", put(old.own[1] * PAGE + 16, bytes(20)), f"BadOrder page {old.own[1]}"
    yield "directory that begins late", put(root + 35, b"\1"), f"BadOrder page {old.own[0]}"
    yield "second byte", put(root + 1, b"\1"), f"BadPadding page {old.own[0]}"


def damages_of_index(rng, old, put, number):
    root = old.root * PAGE
    yield "level 0", number(28, 0), "BadCount page 0"
    yield "level 17", number(28, 17), "BadCount page 0"
    yield "another level", number(28, old.levels + 1), f"BadCount page {old.root}"
    yield "a region too many counted", number(20, len(old.regions) + 1), "BadCount page 0"
    if len(old.regions) > 1:
        yield "a region too few counted", number(20, len(old.regions) - 1), "BadCount page 0"
    if old.pages[old.root][40:60] != bytes(19) + b"\1":
        yield "index that begins late", put(root + 35, b"\1"), f"OutOfRegion page {old.root}"
    if old.levels > 1:
        yield "the root names itself", number(root + 36, old.root), f"BadCount page {old.root}"
        yield "the root names a region", number(root + 36, old.entries[0][1]), f"WrongKind page {old.entries[0][1]}"


# ---- Cases

KINDS = ["some regions"] * 4 + ["no rows", "full pages", "no number left", "many regions"]


def cases(count, rng, counts):
    """Tables and what must be told of them: the file, the lines, and the table where nothing is wrong with it."""
    for turn in range(count):
        version, kind = 1 + turn % 2, rng.choice(KINDS)
        old = table(rng, version, kind)
        counts[f"{kind} of format {version}"] += 1
        yield old.whole(), old.counts(), old
        wrong = [it for it in damages(rng, old) if it[1] != old.whole()]
        for _, whole, line in rng.sample(wrong, min(len(wrong), 6)):
            counts[f"damaged of format {version}"] += 1
            yield whole, f"! {line}\n", None


# ---- What was made


def regions_in(data):
    """The header of a file of format 3, and the entries to which its index leads."""

    def leads(number, level):
        page = data[number * PAGE :][:PAGE]
        assert (page[0], page[1]) == (0x49, level) and page[4:16] == bytes(12)
        for first, below in entries_on(page):
            yield from [(first, below)] if level == 1 else leads(below, level - 1)

    return data[:PAGE], list(leads(number_at(data, 24), number_at(data, 28)))


def is_new(old, data):
    """Whether this file is the table in format 3."""
    head, entries = regions_in(data)
    same = bytearray(old.pages[0])
    same[4], same[24:32] = 3, head[24:32]
    pages = [data[PAGE * page :][:PAGE] for _, page in entries]
    has_firsts = [first for first, _ in entries] == [first for first, _ in old.entries]
    return head == same and has_firsts and pages == [old.pages[page] for _, page in old.entries]


def script_of(old):
    """A script on the upgraded table, and its lines: all rows, and one more."""
    name, columns = old.names[0].decode(), ",".join(it.decode() for it in old.names[1:])
    rows = "".join(",".join(map(str, point + values)) + "\n" for _, point, values in old.rows)
    told = f"{columns}\n{rows}-- rows {len(old.rows)}, pages {len(old.regions)}\n"
    row = ", ".join("1" for _ in old.names[1:])
    is_full = old.next == NUMBERS
    told += "! Full\n" if is_full else f"-- inserted {old.next}\n"
    return f"SELECT * FROM {name}; INSERT INTO {name} VALUES ({row});", told, 3 if is_full else 0


def is_right(program, case, work):
    """Whether the program upgrades a table, or refuses it, as it must; what is wrong is printed."""
    whole, told, old = case
    paths = before, after, script = [os.path.join(work, name) for name in ("old.ub", "new.ub", "script.sql")]
    for path, data in zip(paths, (whole, b"what stood here", script_of(old)[0].encode() if old else b"")):
        with open(path, "wb") as file:
            file.write(data)
    ended = run(program, "upgrade", before, after)
    right = ended == (told.encode(), 0 if old else 3) and read(before) == whole
    if old is None:
        right &= read(after) == b"what stood here"
    else:
        right = right and is_new(old, read(after)) and run(program, "run", after, script) == (script_of(old)[1].encode(), script_of(old)[2])
    if not right:
        print(f"WRONG: {ended[0][-200:]!r}, status {ended[1]}, not {told!r}; the files are {keep(work)}")
    return right


def run(program, *words):
    """What a command writes, and its status, or what it told where it should tell nothing."""
    ended = subprocess.run([program, *words], capture_output=True, timeout=60)
    return ended.stdout, ended.returncode if not ended.stderr else ended.stderr


def read(path):
    with open(path, "rb") as file:
        return file.read()


def keep(work):
    """Where the files of a case are kept."""
    return shutil.copytree(work, tempfile.mkdtemp(prefix="upgrade-"), dirs_exist_ok=True)


def runs(before, data):
    """The runs of bytes in which a file differs from the one before, of the same length: where each begins, and its bytes."""
    at = 0
    while at < len(data):
        if data[at : at + 64] == before[at : at + 64]:
            at += 64
            continue
        yield at, data[at : at + 64]
        at += 64


def print_transcript(count, rng, counts):
    """Tables as files that are cut out of a blank one with pages enough, and get their bytes."""
    print("== rows.csv\nx\n% 1200\n$ load rows.csv blank.ub --dims 1 --page-rows 2\n-- rows 1200, regions 600")
    for page in range(600):
        print(f"~ blank.ub {PAGE * page}" + " 0" * PAGE)
    print("== none.csv\nx,y\n7,9\n$ load none.csv none.ub --dims 2\n-- rows 1, regions 1\n== none.sql\nSELECT * FROM t;")
    for whole, told, old in cases(count, rng, counts):
        if len(whole) % PAGE:
            continue
        print(f"= blank.ub old.ub\n| old.ub {len(whole) // PAGE}")
        for at, data in runs(bytes(len(whole)), whole):
            print(f"~ old.ub {at} " + " ".join(map(str, data)))
        print("= none.ub new.ub")
        for _ in range(2):
            print(f"$ upgrade old.ub new.ub\n{told}? {0 if old else 3}")
        if old is None:
            print("$ run new.ub none.sql\nx,y\n7,9\n-- rows 1, pages 1")
            continue
        script, lines, status = script_of(old)
        print(f"== script.sql\n{script}\n$ run new.ub script.sql\n{lines}? {status}")


if __name__ == "__main__":
    sys.exit(try_cases("upgrade.py", cases, is_right, print_transcript))
