"""Random queries of small tables, their text, and the lines that a list of rows and a model of regions give of them: what `sweeps.py` and
`changes.py` share; `signed.py`, `fuzz_files.py` and `words.py` take the operators and aggregates from here.

Tables have one to three unsigned dimensions and one measure, `m`; coordinates lie below 8, so that boxes and rows meet often. An item is what
a query shows or orders by: a column, None for COUNT(*), or an aggregate and a column.
"""
import operator

from lib.regions import GREATEST, Shape, event_values, met_by, pages_read

AGGREGATES = {"SUM": sum, "MIN": min, "MAX": max}
OPERATORS = {
    "=": operator.eq,
    "<>": operator.ne,
    "!=": operator.ne,
    "<": operator.lt,
    "<=": operator.le,
    ">": operator.gt,
    ">=": operator.ge,
}


# ---- Random parts


def small_shape(dims, page_rows):
    """The shape of such a table."""
    return Shape(dims, 1, 0, page_rows)


def random_row(rng, dims):
    """A row of small values."""
    return tuple(rng.randrange(8) for _ in range(dims)) + (rng.randrange(4),)


def random_box(rng, dims):
    """A box that has small bounds in some dimensions, and none in the others."""
    box = []
    for _ in range(dims):
        low, high = sorted((rng.randrange(9), rng.randrange(9)))
        box.append((low, high) if rng.random() < 0.6 else (0, GREATEST))
    return tuple(box)


# ---- Text


def spelled(item, names):
    """An item, as a statement and the titles of its answer have it."""
    if isinstance(item, int):
        return names[item]
    return "COUNT(*)" if item is None else f"{item[0]}({names[item[1]]})"


def condition(box, names):
    """The condition of a box."""
    return " AND ".join(f"{name} BETWEEN {low} AND {high}" for name, (low, high) in zip(names, box))


def where_of(boxes, least, names):
    """The condition that `is_chosen` is."""
    where = " OR ".join(f"({condition(box, names)})" for box in boxes)
    return where if least is None else f"({where}) AND m >= {least}"


def order_of(keys, names):
    """The keys of ORDER BY, each an item and whether it descends."""
    return ", ".join(spelled(item, names) + (" DESC" if down else "") for item, down in keys)


def limit_of(limit):
    """The text of LIMIT, or none."""
    return "" if limit is None else f" LIMIT {limit}"


# ---- What queries give


def is_inside(row, box):
    """Whether a row's coordinates lie in a box."""
    return all(low <= value <= high for value, (low, high) in zip(row, box))


def is_chosen(row, dims, boxes, least):
    """Whether a row lies in one of the boxes, and its measure is at least this, if one is given."""
    return (least is None or row[dims] >= least) and any(is_inside(row, box) for box in boxes)


def cell(item, group, values, rows):
    """What a group of rows with these values of the columns `group` shows of an item."""
    if isinstance(item, int):
        return values[group.index(item)]
    if item is None:
        return len(rows)
    keyword, column = item
    return AGGREGATES[keyword](row[column] for row in rows)


def rows_given(rows, box, keys, limit):
    """The rows of a box, of these in the order of their numbers, in the order of the keys, at most `limit` of them."""
    inside = [(row, number) for number, row in enumerate(rows, 1) if is_inside(row, box)]

    def order(entry):
        row, number = entry
        return (*(-row[column] if down else row[column] for column, down in keys), number)

    inside.sort(key=order)
    return [row for row, _ in inside[:limit]]


def groups_given(rows, group, keys, limit):
    """The groups of rows, each its values and its rows, in the order of the keys, at most `limit` of them."""
    found = {}
    for row in rows:
        found.setdefault(tuple(row[column] for column in group), []).append(row)

    def order(entry):
        values, members = entry
        shown = [cell(item, group, values, members) for item, _ in keys]
        return [-value if down else value for value, (_, down) in zip(shown, keys)], values

    return sorted(found.items(), key=order)[:limit]


def pages_of_groups(regions, dims, boxes, group, keys, limit, given):
    """How many pages a query that gives these groups reads: by a sweep where its first key, or else the first column by which is grouped, is
    a dimension, and else of all regions that meet the boxes."""
    dim, down = keys[0] if keys else (group[0], False)
    if isinstance(dim, int) and dim < dims:
        met_values = list(event_values(regions, dims, boxes, dim, down))
        return pages_read(met_values, down, limit, [values[group.index(dim)] for values, _ in given])
    return 0 if limit == 0 else met_by(regions, dims, boxes)


# ---- Queries: each is a statement, and what tells its lines by the rows in the order of their numbers and the regions


def query_of_groups(rng, shape):
    """A random query with GROUP BY."""
    dims, names = shape.dims, shape.names
    boxes = [random_box(rng, dims) for _ in range(rng.choice([1, 1, 2]))]
    least = rng.choice([None, None, 2])
    group = [rng.randrange(dims + 1) for _ in range(rng.randint(1, 3))]
    items = [rng.choice([rng.choice(group), None, (rng.choice(list(AGGREGATES)), rng.randrange(dims + 1))]) for _ in range(rng.randint(1, 4))]
    if rng.random() < 0.7:
        items.insert(0, group[0])
    keys = [(rng.choice(items), rng.random() < 0.5) for _ in range(rng.choice([0, 0, 1, 1, 2]))]
    limit = rng.choice([None, 0, 1, 2, 3, 5, 20])
    titles = [spelled(item, names) for item in items]
    statement = f"SELECT {', '.join(titles)} FROM t WHERE {where_of(boxes, least, names)}"
    statement += f" GROUP BY {', '.join(names[column] for column in group)}"
    statement += (f" ORDER BY {order_of(keys, names)}" if keys else "") + limit_of(limit) + ";"

    def lines(rows, regions):
        given = groups_given([row for row in rows if is_chosen(row, dims, boxes, least)], group, keys, limit)
        shown = [",".join(str(cell(item, group, values, members)) for item in items) for values, members in given]
        pages = pages_of_groups(regions, dims, boxes, group, keys, limit, given)
        return [",".join(titles)] + shown + [f"-- rows {len(given)}, pages {pages}"]

    return statement, lines


def query_of_rows(rng, shape):
    """A random query of rows in the order of a dimension."""
    dims, names = shape.dims, shape.names
    box = random_box(rng, dims)
    dim, down = rng.randrange(dims), rng.random() < 0.5
    keys = [(dim, down)]
    if rng.random() < 0.5:
        keys.append((rng.randrange(dims + 1), rng.random() < 0.5))
    limit = rng.choice([None, 0, 1, 2, 3, 5, 20])
    where = " AND ".join(f"{names[i]} BETWEEN {low} AND {high}" for i, (low, high) in enumerate(box) if high != GREATEST)
    statement = "SELECT * FROM t" + (f" WHERE {where}" if where else "") + f" ORDER BY {order_of(keys, names)}" + limit_of(limit) + ";"

    def lines(rows, regions):
        given = rows_given(rows, box, keys, limit)
        met_values = list(event_values(regions, dims, [box], dim, down))
        pages = pages_read(met_values, down, limit, [row[dim] for row in given])
        return [",".join(names)] + [",".join(map(str, row)) for row in given] + [f"-- rows {len(given)}, pages {pages}"]

    return statement, lines


# ---- Scripts: each kind of statement is a function that gives a statement on a table and what tells its lines, where `at` is the place in
# the script at which the statement begins; telling them does to the table what the statement does


class Script:
    """A script in the making: its text, the lines that it must write, and the status that it must end with."""

    def __init__(self):
        self.text, self.lines, self.status = "", [], 0

    def add(self, rng, table, kind, is_refused, counts):
        """Adds a statement of this kind, and counts it."""
        statement, lines = kind(rng, table)
        counts[kind.__name__] += 1
        self.status |= is_refused
        self.lines += lines(len(self.text))
        self.text += statement

    def line(self, words, **texts):
        """The command line of these words, which reads the script and these texts."""
        return words, {**texts, "script.sql": self.text}, "".join(line + "\n" for line in self.lines), self.status


def everything(rng, table):
    """All rows."""
    return "SELECT * FROM t;", lambda at: table.told_whole()
