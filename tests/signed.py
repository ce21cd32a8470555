#!/usr/bin/env python3
"""Compares what the program answers over small random tables with signed dimensions with a model that is written apart from it.

The model is a list of rows, of values, and a list of regions, into which they are put by their coordinates: a value of a signed dimension and
half of all coordinates more. It asks a condition of values, and finds the cells on which that can be true by values too, one dimension after
the other; which regions these meet is found by coordinates. Half of the tables have four dimensions, each of the 16 masks as often as
another; the others have one to three, and any mask. Values and literals lie round zero, at the ends of each range, and past them. A script has
SELECTs with any conditions, orders, groups and limits, EXPLAINs, INSERTs and DELETEs; every second one is parted among several runs on a table
file, and at the end the text of `SELECT *` without its last line is loaded again and asked the same.

Run by hand: tests/signed.py [HOW MANY [SEED [PROGRAM]]]. It prints how many scripts were right and wrong, and which statements they had.
With `--transcript` as the first word it prints the scripts, and what they must write, as a transcript for crates/transcripts, whose program
then plays them with no proved program at hand: tests/signed.py --transcript 1000 | (cd crates/transcripts && rt try --seconds 500).
"""
import itertools
import os
import sys

from lib.program import ends_so, print_line, try_cases
from lib.queries import AGGREGATES, OPERATORS, Script, everything, limit_of, order_of, spelled
from lib.regions import GREATEST, HALF, Shape, Table, event_values, met_by, pages_read

MOST_CELLS = 4096
# The values at which each operator turns.
TURNS = {
    "=": lambda v: [v, v + 1],
    "<>": lambda v: [v, v + 1],
    "!=": lambda v: [v, v + 1],
    "<": lambda v: [v],
    "<=": lambda v: [v + 1],
    ">": lambda v: [v + 1],
    ">=": lambda v: [v],
}


# A condition is None, or one of ("compares", column, operator, literal), ("between", column, literal, literal), ("and", one, another),
# ("or", one, another) and ("not", one).


def holds(condition, row):
    """Whether a condition is true of a row."""
    if condition is None:
        return True
    head, *parts = condition
    if head == "compares":
        return OPERATORS[parts[1]](row[parts[0]], parts[2])
    if head == "between":
        return parts[1] <= row[parts[0]] <= parts[2]
    told = [holds(part, row) for part in parts]
    return {"and": all(told), "or": any(told), "not": not told[0]}[head]


def can_be(condition, row, dims):
    """Whether it can be true, and whether it can be false, where the dimensions alone of a row are known."""
    if condition is None:
        return True, False
    head, *parts = condition
    if head in ("compares", "between"):
        if parts[0] >= dims:
            return True, True
        told = holds(condition, row)
        return told, not told
    told = [can_be(part, row, dims) for part in parts]
    if head == "not":
        return told[0][1], told[0][0]
    (a, not_a), (b, not_b) = told
    return (a and b, not_a or not_b) if head == "and" else (a or b, not_a and not_b)


def leaves(condition):
    """The comparisons of a condition."""
    if condition is None:
        return []
    head, *parts = condition
    return [condition] if head in ("compares", "between") else [leaf for part in parts for leaf in leaves(part)]


def sides(condition, shape):
    """Of each dimension the intervals of values on which no comparison turns, in order."""
    for dim in range(shape.dims):
        turns = set()
        for head, column, *parts in leaves(condition):
            if column == dim:
                turns.update([parts[0], parts[1] + 1] if head == "between" else TURNS[parts[0]](parts[1]))
        least, greatest = shape.least(dim), shape.greatest(dim)
        begins = [least] + sorted(turn for turn in turns if least < turn <= greatest)
        yield list(zip(begins, [begin - 1 for begin in begins[1:]] + [greatest]))


def boxes_of(condition, shape):
    """The boxes of a condition, of values, and whether there are too many cells to make them."""
    all_sides = list(sides(condition, shape))
    count = 1
    for side in all_sides:
        count *= len(side)
    if count > MOST_CELLS:
        return [[(shape.least(dim), shape.greatest(dim)) for dim in range(shape.dims)]], True
    boxes = []
    for cell in itertools.product(*all_sides):
        if not can_be(condition, [low for low, _ in cell], shape.dims)[0]:
            continue
        if boxes and boxes[-1][:-1] == list(cell[:-1]) and boxes[-1][-1][1] + 1 == cell[-1][0]:
            boxes[-1][-1] = (boxes[-1][-1][0], cell[-1][1])
        else:
            boxes.append(list(cell))
    return boxes, False


def moved(boxes, shape):
    """The same boxes, of coordinates."""
    return [tuple((shape.coordinate(dim, low), shape.coordinate(dim, high)) for dim, (low, high) in enumerate(box)) for box in boxes]


def spelled_condition(condition, names, rng):
    head, *parts = condition
    if head == "compares":
        return f"{names[parts[0]]} {parts[1]} {spelled_literal(parts[2], rng)}"
    if head == "between":
        return f"{names[parts[0]]} BETWEEN {spelled_literal(parts[1], rng)} AND {spelled_literal(parts[2], rng)}"
    texts = [f"({spelled_condition(part, names, rng)})" for part in parts]
    return f"NOT {texts[0]}" if head == "not" else f" {head.upper()} ".join(texts)


def spelled_literal(value, rng):
    return ("- " if rng.random() < 0.05 else "-") + str(-value) if value < 0 else str(value)


# A query has items, columns of GROUP BY or None, order keys, and a limit; an item is a column, None for COUNT(*), or an aggregate and a
# column.


class Query:
    def __init__(self, rng, shape):
        self.shape = shape
        self.condition = random_condition(rng, shape)
        self.limit = rng.choice([None, None, 0, 1, 2, 3, 5, 20])
        columns = range(len(shape.names))
        if rng.random() < 0.5:
            self.group = None
            self.items = list(columns) if rng.random() < 0.3 else [rng.choice(columns) for _ in range(rng.randint(1, 4))]
            self.keys = [(rng.choice(columns), rng.random() < 0.5) for _ in range(rng.choice([0, 1, 1, 2, 3]))]
            return
        self.group = [rng.choice(columns) for _ in range(rng.choice([0, 1, 1, 2, 3]))]
        self.items = [random_item(rng, self.group, columns) for _ in range(rng.randint(1, 4))]
        if not self.group and all(isinstance(item, int) for item in self.items):
            self.items.append(None)
        self.keys = [(rng.choice(self.items), rng.random() < 0.5) for _ in range(rng.choice([0, 0, 1, 1, 2]))]

    def text(self, rng):
        names = self.shape.names
        is_all = self.group is None and self.items == list(range(len(names))) and rng.random() < 0.8
        text = "SELECT " + ("*" if is_all else ", ".join(spelled(item, names) for item in self.items)) + " FROM t"
        if self.condition is not None:
            text += f" WHERE {spelled_condition(self.condition, names, rng)}"
        if self.group:
            text += f" GROUP BY {', '.join(names[column] for column in self.group)}"
        if self.keys:
            text += f" ORDER BY {order_of(self.keys, names)}"
        return text + limit_of(self.limit) + ";"

    def lead(self):
        """The dimension along which it is swept, and whether down, or None."""
        if self.group is not None and not self.group:
            return None
        keys = self.keys or ([] if self.group is None else [(self.group[0], False)])
        return keys[0] if keys and isinstance(keys[0][0], int) and keys[0][0] < self.shape.dims else None

    def shown(self, values, rows, item):
        if isinstance(item, int):
            return values[self.group.index(item)] if self.group is not None else rows[0][item]
        if item is None:
            return len(rows)
        keyword, column = item
        return AGGREGATES[keyword](row[column] for row in rows) if rows else "NULL"

    def entries(self, rows):
        """The rows, or groups, in order: each by the values that break ties, and its rows."""
        found = {() : []} if self.group == [] else {}
        for number, row in sorted(rows.items()):
            if holds(self.condition, row):
                found.setdefault((number,) if self.group is None else tuple(row[column] for column in self.group), []).append(row)

        def order(entry):
            values, members = entry
            shown = [self.shown(values, members, item) for item, _ in self.keys]
            return [-value if down else value for value, (_, down) in zip(shown, self.keys)], values

        return list(found.items()) if self.group == [] else sorted(found.items(), key=order)

    def lines(self, table):
        given = self.entries(table.rows)[: self.limit]
        rows = [",".join(str(self.shown(values, members, item)) for item in self.items) for values, members in given]
        titles = ",".join(spelled(item, self.shape.names) for item in self.items)
        return [titles] + rows + [f"-- rows {len(rows)}, pages {self.pages(table, given)}"]

    def pages(self, table, given):
        boxes, _ = boxes_of(self.condition, self.shape)
        if not boxes or self.limit == 0:
            return 0
        dim, down = self.lead() or (0, False)
        values = list(event_values(table.regions, self.shape.dims, moved(boxes, self.shape), dim, down))
        if self.lead() is None:
            return len(values)
        return pages_read(values, down, self.limit, [self.shape.coordinate(dim, members[-1][dim]) for _, members in given])

    def explained(self, table):
        boxes, is_wide = boxes_of(self.condition, self.shape)
        is_exact = not is_wide and all(leaf[1] < self.shape.dims for leaf in leaves(self.condition))
        cover = f"cover {'wide' if is_wide else 'exact' if is_exact else 'partial'}"
        count = len(table.regions)
        if not boxes or self.limit == 0:
            return ["plan empty", cover, "filter no", "points 0", f"regions 0 of {count}"]
        lead = self.lead()
        plan = "plan scan" if lead is None else f"plan sweep {self.shape.names[lead[0]]} {'desc' if lead[1] else 'asc'}"
        points = 0
        for box in boxes:
            size = 1
            for low, high in box:
                size *= high - low + 1
            points += size
        met = met_by(table.regions, self.shape.dims, moved(boxes, self.shape))
        return (
            [plan, cover, "filter no" if is_exact else "filter yes"]
            + ["box " + ", ".join(f"{name} {low}..{high}" for name, (low, high) in zip(self.shape.names, box)) for box in boxes]
            + [f"points {points}", f"regions {met} of {count}"]
        )


def random_item(rng, group, columns):
    aggregate = (rng.choice(list(AGGREGATES)), rng.choice(columns))
    return rng.choice([rng.choice(group), None, aggregate] if group else [None, aggregate])


def random_value(rng, shape, column):
    """A value of a column: most lie round zero, others at the ends, and where an unsigned coordinate's highest bit turns."""
    if column >= shape.dims:
        return rng.choice([rng.randint(-4, 4)] * 8 + [2**63 - 1, -(2**63)])
    least, greatest = shape.least(column), shape.greatest(column)
    near = rng.randint(-4, 3) if shape.is_signed(column) else rng.randint(0, 7)
    return rng.choice([near] * 8 + [least, least + 1, greatest, greatest - 1, min(HALF, greatest), HALF - 1, HALF // 2])


def random_literal(rng, shape, column):
    """What a column is compared with: values, those beside them, and numbers that no column has."""
    if rng.random() < 0.75:
        return random_value(rng, shape, column) + rng.choice([0, 0, 0, 0, -1, 1])
    ends = [HALF - 1, HALF, -HALF, -HALF - 1, GREATEST, GREATEST + 1, -1, 0, 5000000000, 2**63, -(2**63) - 1, 2**64 - 1, 1 - 2**64]
    return rng.choice(ends)


def random_comparison(rng, shape):
    column = rng.randrange(shape.dims) if rng.random() < 0.8 else rng.randrange(len(shape.names))
    if rng.random() < 0.35:
        low, high = random_literal(rng, shape, column), random_literal(rng, shape, column)
        return ("between", column, *(sorted((low, high)) if rng.random() < 0.85 else (low, high)))
    return ("compares", column, rng.choice(list(OPERATORS)), random_literal(rng, shape, column))


def random_tree(rng, shape, count):
    """A condition of so many comparisons."""
    if count == 1:
        one = random_comparison(rng, shape)
        return ("not", one) if rng.random() < 0.15 else one
    left = rng.randint(1, count - 1)
    both = (rng.choice(["and", "or"]), random_tree(rng, shape, left), random_tree(rng, shape, count - left))
    return ("not", both) if rng.random() < 0.1 else both


def random_condition(rng, shape):
    return None if rng.random() < 0.15 else random_tree(rng, shape, rng.choice([1, 1, 2, 2, 3, 4]))


def random_row(rng, shape):
    return tuple(random_value(rng, shape, column) for column in range(len(shape.names)))


# Each of these gives a statement and what tells its lines, where `at` is the place in the script at which the statement begins.


def select(rng, table):
    query = Query(rng, table.shape)
    return query.text(rng), lambda at: query.lines(table)


def explain(rng, table):
    query = Query(rng, table.shape)
    return "EXPLAIN " + query.text(rng), lambda at: query.explained(table)


def insert(rng, table):
    row = random_row(rng, table.shape)
    return f"INSERT INTO t VALUES ({', '.join(spelled_literal(value, rng) for value in row)});", lambda at: [f"-- inserted {table.insert(row)}"]


def delete(rng, table):
    condition = random_condition(rng, table.shape)
    where = "" if condition is None else f" WHERE {spelled_condition(condition, table.shape.names, rng)}"
    return f"DELETE FROM t{where};", lambda at: [f"-- deleted {table.delete(lambda row: holds(condition, row))}"]


def refused(rng, table):
    """An INSERT of a value that its column doesn't have: of a dimension one that it would have if it were signed, or weren't."""
    shape = table.shape
    row = list(random_row(rng, shape))
    place = rng.randrange(len(row))
    row[place] = rng.choice([shape.least(place) - 1, shape.greatest(place) + 1, 2**64 - 1, 1 - 2**64])
    if place < shape.dims:
        row[place] = rng.choice([row[place], HALF, GREATEST] if shape.is_signed(place) else [row[place], -1, -HALF])
    head = "INSERT INTO t VALUES ("
    begin = len(head + "".join(f"{value}, " for value in row[:place]))
    return head + ", ".join(map(str, row)) + ");", lambda at: [f"! ValueRange at {at + begin}"]


KINDS = [(select, 50), (explain, 20), (insert, 20), (delete, 5), (refused, 5)]


def random_shape(rng, i):
    if i % 2:
        return Shape(4, rng.randint(0, 2), i // 2 % 16, rng.randint(2, 4))
    dims = rng.randint(1, 3)
    return Shape(dims, rng.randint(0, 2), rng.randrange(2**dims), rng.randint(2, 4))


def random_run(rng, table, counts, kinds):
    """A script of statements of these kinds."""
    script = Script()
    for kind in kinds:
        script.add(rng, table, kind, kind is refused, counts)
        script.text += rng.choice([" ", "\n"])
    return script


def some_kinds(rng):
    return rng.choices([kind for kind, _ in KINDS], [weight for _, weight in KINDS], k=rng.randint(3, 12))


def case(rng, i, counts):
    """The command lines of a case, each with the texts that it reads, by their names, what it must write and its status."""
    shape = random_shape(rng, i)
    table = Table(shape, [random_row(rng, shape) for _ in range(rng.choice([0, 3, 8, 14, 20]))])
    words, data = shape.words(), {"data.csv": table.text()}
    parts = rng.randint(2, 3) if i // 2 % 2 else 1
    if parts > 1:
        yield f"load data.csv table.ub {words}", data, table.told_loaded(), 0
    for part in range(parts):
        script = random_run(rng, table, counts, some_kinds(rng) + [everything] * (part == parts - 1))
        if parts > 1:
            yield script.line("run table.ub script.sql")
        else:
            yield script.line(f"try data.csv script.sql {words}", **data)
    again = Table(shape, table.in_order())
    yield random_run(rng, again, counts, [select] * 3).line(f"try again.csv script.sql {words}", **{"again.csv": table.text()})


def print_transcript(count, rng, counts):
    for i in range(count):
        for line in case(rng, i, counts):
            print_line(line)


def has_mask(path, words):
    """Whether a table file is of format 3, and its header has the mask that these words gave."""
    given = words.split()
    with open(path, "rb") as file:
        head = file.read(12)
    return head[4] == 3 and head[9] == (int(given[given.index("--signed") + 1]) if "--signed" in given else 0) and head[10:] == b"\0\0"


def is_right(tried, line, work):
    """Whether a command line writes what it must, and what it loads has the mask."""
    if not ends_so(tried, line, work):
        return False
    if line[0].startswith("load") and not has_mask(os.path.join(work, "table.ub"), line[0]):
        print(f"{line[0]}: the header has another format or mask")
        return False
    return True


def main():
    return try_cases(
        "signed.py",
        lambda count, rng, counts: (case(rng, i, counts) for i in range(count)),
        lambda tried, lines, work: all(is_right(tried, line, work) for line in lines),
        print_transcript,
    )


if __name__ == "__main__":
    sys.exit(main())
