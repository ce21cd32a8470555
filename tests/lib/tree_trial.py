"""The part 'Trials' of crates/tree_transcripts/stdin, and what it must be answered, by the regions of tests/lib/regions.py and by an index as
docs/FORMATS.md and docs/TABLE_FILES.md have it, apart from the program.

    cd tests && python3 -m lib.tree_trial           prints that part; tests/tree_transcripts.py tells whether it stands there
    cd tests && python3 -m lib.tree_trial levels    prints a text of nine tables whose indexes get a third level, and lose it again: their rows
                                                    come in three orders, and go in three; out/tree_transcripts plays it, by hand
"""
import sys

from lib.pages import ENTRIES, PAGE
from lib.regions import ORIGIN, address, insert, no_regions, place_of, remove

WORD = (1 << 64) - 1
# How many entries of an index's page that is parted stay on it.
LEFT = 86
# Random changes: how many rows a page holds, how many changes are made, and after how many each the pages are looked at.
TRIALS = ((2, 60, 12), (3, 60, 12), (64, 300, 50))
# Of the table whose store fails at each of its calls.
FAILING = 16
# Rows in ascending order, two on a page. A page of the index has 170 entries, so that the 171st region makes it two levels; the right one of
# its two pages is full at 256 regions, and parted at the next one.
GROWN = (2, 340, 342, 512, 514)
# So many rows make three levels in ascending or descending order: pages of the index are left with 86 entries, or 85, and there are more
# than 170 of these pages. In another order it takes some more.
TALL, TALL_AT_RANDOM = 29_500, 34_000


class Numbers:
    """Random numbers, which are the same for a seed on every machine."""

    def __init__(self, seed):
        self.state = seed

    def any(self):
        """A number of 32 bits."""
        self.state = (self.state * 6364136223846793005 + 1442695040888963407) & WORD
        return self.state >> 32

    def below(self, end):
        return self.any() * end >> 32


class Node:
    """A page of an index: its level, its number, and its entries, each a first key, and a region's page or such a node."""

    def __init__(self, level, page, entries):
        self.level, self.page, self.entries = level, page, entries

    def place_of(self, key):
        """The place of the entry to which a key falls."""
        low, high = 0, len(self.entries)
        while high - low > 1:
            middle = (low + high) // 2
            low, high = (low, middle) if key < self.entries[middle][0] else (middle, high)
        return low

    def items(self):
        """Its bytes, as a line spells them."""
        named = [(first, below.page if self.level > 1 else below) for first, below in self.entries]
        words = [f"'I {self.level} {len(named)}/2 0*12"] + [item for run in runs(named) for item in run_items(run)]
        return " ".join(words + rest(16 + 24 * len(named)))


class Tree:
    """A table: its regions, the pages on which they are, by their first keys, and its index. No page is used again."""

    def __init__(self, dims, measures, page_rows):
        self.dims, self.measures, self.page_rows = dims, measures, page_rows
        self.regions, self.pages, self.root = no_regions(), {ORIGIN: 1}, Node(1, 2, [(ORIGIN, 1)])
        self.size, self.next, self.count = 3, 1, 0

    def take_page(self):
        self.size += 1
        return self.size - 1

    def insert(self, *row):
        """Puts in a row, by its values: its number."""
        key = (address(row[: self.dims]), self.next)
        self.next, self.count = self.next + 1, self.count + 1
        place, before = place_of(self.regions, key), len(self.regions)
        insert(self.regions, self.page_rows, key, row)
        if before < len(self.regions):
            first = self.regions[place + 1].first
            self.pages[first] = self.take_page()
            self.grow(first)
        return key[1]

    def grow(self, first):
        """Puts the entry of a new region into the index, whose root may be parted."""
        right = self.added(self.root, first)
        if right:
            left = self.root
            self.root = Node(left.level + 1, self.take_page(), [(left.entries[0][0], left), (right.entries[0][0], right)])

    def added(self, node, first):
        """Puts it below a page of the index: the right half, where that is parted."""
        place = node.place_of(first)
        new = (first, self.pages[first])
        if node.level > 1:
            right = self.added(node.entries[place][1], first)
            new = (right.entries[0][0], right) if right else None
        if new:
            node.entries.insert(place + 1, new)
        if len(node.entries) <= ENTRIES:
            return None
        right = Node(node.level, self.take_page(), node.entries[LEFT:])
        node.entries = node.entries[:LEFT]
        return right

    def remove(self, key):
        """Takes out the row of a key that is there."""
        self.count -= 1
        place = place_of(self.regions, key)
        there = [region.first for region in self.regions[max(place - 1, 0) : place + 2]]
        remove(self.regions, self.page_rows, key)
        left = {region.first for region in self.regions[max(place - 1, 0) : place + 2]}
        for first in there:
            if first not in left:
                del self.pages[first]
                self.shrink(self.root, first)
        while self.root.level > 1 and len(self.root.entries) == 1:
            self.root = self.root.entries[0][1]

    def shrink(self, node, first):
        """Takes the entry of a region out of the index below a page. A page that has no entry left goes."""
        place = node.place_of(first)
        if node.level == 1:
            del node.entries[place]
            return
        below = node.entries[place][1]
        self.shrink(below, first)
        node.entries[place : place + 1] = [(below.entries[0][0], below)] if below.entries else []

    def header(self):
        """The bytes of the header, from the next number on."""
        return f"{self.next}/4 {self.count}/4 {len(self.regions)}/4 {self.root.page}/4 {self.root.level}/4"

    def region_items(self, region):
        """The bytes of a region's page."""
        rows, (z, number) = region.rows, region.first
        words = [f"'R {self.dims} {self.measures} {len(rows)} {z}/16 {number}/4"]
        words += [f"{key[1]}/4" for key, _ in rows]
        for column in range(self.dims + self.measures):
            words += [f"{row[column]}/{4 if column < self.dims else 8}" for _, row in rows]
        return " ".join(words + rest(24 + (4 + 4 * self.dims + 8 * self.measures) * len(rows)))

    def told_count(self):
        return f"rows {self.count} regions {len(self.regions)}"

    def told_walk(self):
        count = len(self.regions)
        return f"{count} of {count} from {self.regions[0].first[0]} to {self.regions[-1].first[0]}"


def rest(at):
    """The zeros from an offset on."""
    return [f"0*{PAGE - at}"] if at < PAGE else []


def runs(named):
    """The entries of a page as runs, each with one step of addresses and one of pages, and with no numbers but where it is one entry."""
    run = []
    for entry in named:
        if run and not goes_on(run, entry):
            yield run
            run = []
        run.append(entry)
    if run:
        yield run


def goes_on(run, entry):
    """Whether an entry goes on with a run: in it no number stands, and each entry is a step behind the one before, of the address and of the page."""
    step = step_to(run[-1], entry)
    is_first = len(run) == 1 or step == step_to(run[-2], run[-1])
    return is_first and min(step) >= 0 and all(number == 0 for (_, number), _ in [*run, entry])


def step_to(entry, after):
    """The step from an entry to the one after it."""
    return after[0][0] - entry[0][0], after[1] - entry[1]


def run_items(run):
    """A run as one item, if it is a long one, or else as one for each entry."""
    if len(run) < 3:
        return [f"e{z}:{number}>{page}" if number else f"e{z}>{page}" for (z, number), page in run]
    ((z, _), page), (more, pages) = run[0], step_to(*run[:2])
    return [f"e{z}+{more}*{len(run)}>{page}+{pages}"]


# ---- Random changes


def changes(tree, numbers, count):
    """Random changes, each a line and what it is answered. In the first half four of five put a row in, and in the second one of five; of the
    others some take out one that isn't there."""
    there, gone = [], (63, 9)
    for after in range(count):
        if numbers.below(5) < (4 if after < count // 2 else 1):
            row = (numbers.below(8), numbers.below(8), numbers.below(100))
            number = tree.insert(*row)
            there.append((address(row[:2]), number))
            yield f"insert {row[0]} {row[1]} {row[2]}", str(number)
            continue
        place = numbers.below(len(there) + 1)
        if place == len(there):
            yield f"remove {gone[0]} {gone[1]}", "no"
            continue
        gone = there.pop(place)
        tree.remove(gone)
        yield f"remove {gone[0]} {gone[1]}", "yes"


def look(tree):
    """The lines that close a table, look at its header and all pages that it uses, and open it again."""
    yield f"close;size -> ok; {tree.size}"
    yield f"bytes 0@12 {tree.header()} -> yes"
    yield f"bytes {tree.root.page}@0 {tree.root.items()} -> yes"
    for region in tree.regions:
        yield f"bytes {tree.pages[region.first]}@0 {tree.region_items(region)} -> yes"
    yield "open;check -> ok; ok"


def changed_at_random(page_rows, count, between):
    """The lines of so many changes of a table with so many rows on a page."""
    yield f"# ---- Random changes, {page_rows} rows on a page"
    yield f"open no-rows with 0@8 {page_rows} -> ok"
    tree = Tree(2, 1, page_rows)
    for after, (line, answer) in enumerate(changes(tree, Numbers(page_rows), count), 1):
        yield f"{line};count;walk -> {answer}; {tree.told_count()}; {tree.told_walk()}"
        if after % between == 0:
            yield from look(tree)


# ---- Calls


class Held:
    """Which pages of a small tree its pager holds, and how many calls of the store a change makes."""

    def __init__(self):
        self.held, self.is_marked = set(), False

    def read(self, pages):
        """How many of some pages are read, which are held then."""
        new = set(pages) - self.held
        self.held |= new
        return len(new)

    def write(self, count):
        """How many calls write so many pages of a change: before the first one the header is marked."""
        more = 0 if self.is_marked else 1
        self.is_marked = True
        return count + more


def neighbours(tree, place):
    """The places of the regions that are read where a row is taken out of this one: it, and where few rows are left the next one, and the
    one before where that doesn't fit. And whether two of them become one."""
    sizes = [len(region.rows) for region in tree.regions]
    places, left = [place], sizes[place] - 1
    if left >= tree.page_rows // 2:
        return places, False
    for other in (place + 1, place - 1):
        if 0 <= other < len(sizes):
            places.append(other)
            if left + sizes[other] <= tree.page_rows:
                return places, True
    return places, False


def calls_of(tree, held, line):
    """How many pages a change reads, how many it adds, and how many calls write, before it is made."""
    words = line.split()
    numbers = [int(word) for word in words[1:]]
    key = (address(numbers[:2]), tree.next) if words[0] == "insert" else tuple(numbers)
    place = place_of(tree.regions, key)
    rows = tree.regions[place].rows
    if words[0] == "insert":
        is_full = len(rows) == tree.page_rows
        # The new region, the old one, and the root; or the old one alone.
        return held.read([page_at(tree, place)]), int(is_full), held.write(3 if is_full else 1)
    if all(entry[0] != key for entry in rows):
        return held.read([page_at(tree, place)]), 0, 0
    places, are_joined = neighbours(tree, place)
    return held.read(page_at(tree, it) for it in places), 0, held.write(2 if are_joined else 1)


def page_at(tree, place):
    """The page of the region at a place."""
    return tree.pages[tree.regions[place].first]


def failing():
    """The block of some random changes of a table whose store fails at each of its calls in turn."""
    yield "# ---- Random changes, of which each call fails"
    yield "calls no-rows"
    yield "open -> ok | 2 0 0"
    made = list(changes(Tree(2, 1, 2), Numbers(7), FAILING))
    tree, held = Tree(2, 1, 2), Held()
    again = changes(tree, Numbers(7), FAILING)
    for line, answer in made:
        reads, adds, writes = calls_of(tree, held, line)
        next(again)
        yield f"{line} -> {answer} | {reads} {adds} {writes}"
        yield f"walk -> {tree.told_walk()} | 0 0 0"
    yield f"count -> {tree.told_count()} | 0 0 0"
    yield "close -> ok | 0 0 3"
    yield "end"


# ---- Rows in ascending order


def filled(rows):
    """A table of one dimension with so many rows in ascending order."""
    tree = Tree(1, 0, 2)
    for x in range(rows):
        tree.insert(x)
    return tree


def nodes(node):
    """The pages of an index."""
    yield node
    if node.level > 1:
        for _, below in node.entries:
            yield from nodes(below)


def grown(rows):
    """The lines of such a table, which is spelled, then made, closed and opened again."""
    tree = filled(rows)
    yield f"table line-of-{rows}"
    yield f"page 'UBTR 3 0 1 0 2 0*3 {tree.header()} .t .x"
    firsts = {page: first[0] for first, page in tree.pages.items()}
    index = {node.page: node for node in nodes(tree.root)}
    page = 1
    while page < tree.size:
        if page in index:
            yield f"page {index[page].items()}"
            page += 1
            continue
        count = 0
        while page + count in firsts and firsts[page + count] == firsts[page] + 2 * count:
            count += 1
        x = firsts[page]
        step = "+2" if count > 1 else ""
        head = f"pages {count}" if count > 1 else "page"
        yield f"{head} 'R 1 0 2 {x}{step}/16 0/4 {x + 1}{step}/4 {x + 2}{step}/4 {x}{step}/4 {x + 1}{step}/4"
        page += count
    told, levels = tree.told_count(), tree.root.level
    yield f"create line;fill {rows};close;same line-of-{rows};open;check;count -> ok; ok; ok; yes; ok; ok; {told}"
    number = tree.insert(rows // 2)
    assert levels <= tree.root.level <= 2
    yield f"insert {rows // 2};check;count;close;bytes 0@12 {tree.header()} -> {number}; ok; {tree.told_count()}; ok; yes"


def taken_out(tree, first):
    """The lines that take out the rows from one on, by their numbers, and close and open the table."""
    numbers = [key for region in tree.regions for key, _ in region.rows if key[0] >= first]
    for key in sorted(numbers, key=lambda key: key[1]):
        tree.remove(key)
    yield f"DELETE FROM t WHERE x >= {first};check;count;close -> {len(numbers)}; ok; {tree.told_count()}; ok"
    yield f"bytes 0@12 {tree.header()} -> yes"
    yield f"bytes {tree.root.page}@0 {tree.root.items()} -> yes"
    yield "open -> ok"


def tall():
    """The lines of a table whose index gets a third level, and loses that and the second one again."""
    tree = filled(TALL)
    assert tree.root.level == 3
    yield f"create line;fill {TALL};check;count;close;size -> ok; ok; ok; {tree.told_count()}; ok; {tree.size}"
    yield f"bytes 0@12 {tree.header()} -> yes"
    yield f"bytes {tree.root.page}@0 {tree.root.items()} -> yes"
    yield "open -> ok"
    yield f"SELECT x FROM t -> pages {len(tree.regions)} rows {TALL}"
    yield from taken_out(tree, 20_000)
    assert tree.root.level == 3
    yield from taken_out(tree, tree.root.entries[1][0][0])
    assert tree.root.level == 2
    for key in sorted((key for region in tree.regions for key, _ in region.rows), key=lambda key: key[1]):
        tree.remove(key)
    assert (tree.count, len(tree.regions), tree.root.level) == (0, 1, 1)
    # Not each of the rows that are taken out now is still there.
    yield f"empty {TALL};check;count;close;size -> no; ok; {tree.told_count()}; ok; {tree.size}"
    yield f"bytes 0@12 {tree.header()} -> yes"
    yield f"bytes {tree.root.page}@0 {tree.root.items()} -> yes"


# ---- The texts


HEAD = """\
# ======== Trials
# Written by tests/lib/tree_trial.py, which works the answers out on plain lists: cd tests && python3 -m lib.tree_trial. Lines with semicolons
# between them are asked one after the other, and so stand their answers.
"""


def text():
    """The part of that file."""
    lines = [line for trial in TRIALS for line in [*changed_at_random(*trial), ""]]
    lines += [*failing(), ""]
    lines += ["# ---- Rows in ascending order, closed and opened again"]
    lines += [line for rows in GROWN for line in [*grown(rows), ""]]
    lines += ["# ---- A third level comes and goes", *tall()]
    return HEAD + "\n".join(["", *lines, ""])


ORDERS = ("ascending", "descending", "random")


def coordinates(order, rows):
    """The coordinates of so many rows, in an order."""
    numbers = Numbers(34)
    if order == "random":
        return [numbers.any() for _ in range(rows)]
    return list(range(rows) if order == "ascending" else reversed(range(rows)))


def in_order(order, keys):
    """The keys of rows, which were put in one after the other, in the order in which these are taken out."""
    if order == "random":
        return [keys[after * 7919 % len(keys)] for after in range(len(keys))]
    return keys if order == "ascending" else keys[::-1]


def levels(order, then):
    """The lines of a table whose rows come in one order, and go in another one, each a line; each time that 2,000 more have come or gone it is
    checked, and closed and opened."""
    tree = Tree(1, 0, 2)
    keys = []
    yield f"# Rows that come {order}, and go {then}"
    yield "create line -> ok"
    for after, x in enumerate(coordinates(order, TALL_AT_RANDOM if order == "random" else TALL), 1):
        keys.append((x, tree.insert(x)))
        yield f"insert {x} -> {keys[-1][1]}"
        yield from looked_at(tree, after)
    assert tree.root.level == 3
    for after, key in enumerate(in_order(then, keys), 1):
        tree.remove(key)
        yield f"remove {key[0]} {key[1]} -> yes"
        yield from looked_at(tree, after)
    assert (tree.count, len(tree.regions), tree.root.level) == (0, 1, 1)
    yield from looked_at(tree, 0)


def looked_at(tree, after):
    """The lines that look at it, if it is time for that."""
    if after % 2000 == 0:
        yield f"check;count;close;size -> ok; {tree.told_count()}; ok; {tree.size}"
        yield f"bytes 0@12 {tree.header()} -> yes"
        for node in nodes(tree.root):
            yield f"bytes {node.page}@0 {node.items()} -> yes"
        yield "open -> ok"


def main():
    if sys.argv[1:] == ["levels"]:
        for order in ORDERS:
            for then in ORDERS:
                print(*levels(order, then), sep="\n")
    else:
        print(text(), end="")


if __name__ == "__main__":
    main()
