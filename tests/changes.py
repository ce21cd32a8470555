#!/usr/bin/env python3
"""Compares what the program makes of small random scripts of INSERT, DELETE, SELECT and EXPLAIN with a model that is written apart from it.

The model is a list of rows and a list of regions, into which rows are put and out of which they are taken (tests/lib/regions.py): so the
number of each row, the rows of each query, and the pages and regions that it tells, are those of the table that the statements before it
left. Every second script is one run on a table in memory; the others are parted among several runs on a table file, between which rows of a
CSV text are appended to it, in the place of a third of the INSERTs.

Run by hand: tests/changes.py [HOW MANY [SEED [PROGRAM]]]. It prints how many scripts were right and wrong, and which statements they had.
With `--transcript` as the first word it prints the scripts, and what they must write, as a transcript for crates/transcripts, whose program
then plays them with no proved program at hand: tests/changes.py --transcript 2000 | (cd crates/transcripts && rt try --seconds 500).
"""
import sys

from lib.program import ends_so, try_cases
from lib.queries import Script, everything, is_chosen, query_of_groups, query_of_rows, random_box, random_row, small_shape, where_of
from lib.regions import GREATEST, Table, met_by

# Each of these gives a statement and what tells its lines, where `at` is the place in the script at which the statement begins.


def new_row(rng, dims):
    """A row of small values, or now and then of others."""
    row = list(random_row(rng, dims))
    if rng.random() < 0.1:
        row[rng.randrange(dims)] = rng.choice([GREATEST, GREATEST - 1, 8, 100])
    if rng.random() < 0.1:
        row[-1] = rng.choice([2**63 - 1, -(2**63), -1])
    return row


def appending(rng, table):
    """A CSV text of some rows, its columns in any order, and the line of appending it, by which the table has them."""
    dims, names = table.shape.dims, table.shape.names
    rows = [new_row(rng, dims) for _ in range(rng.choice([0, 1, 1, 2, 5]))]
    order = rng.sample(range(dims + 1), dims + 1)
    table.append([tuple(row) for row in rows])
    lines = [",".join(names[place] for place in order)] + [",".join(str(row[place]) for place in order) for row in rows]
    return "\n".join(lines) + "\n", f"-- appended {len(rows)}, rows {len(table.rows)}\n"


def insertion(rng, table):
    row = new_row(rng, table.shape.dims)
    return f"INSERT INTO t VALUES ({', '.join(map(str, row))});", lambda at: [f"-- inserted {table.insert(tuple(row))}"]


def deletion(rng, table):
    dims, names = table.shape.dims, table.shape.names
    kind = rng.randrange(10)
    if kind == 0:
        return "DELETE FROM t;", lambda at: [f"-- deleted {table.delete(lambda row: True)}"]
    if kind <= 3 and table.rows:
        # One point, or one value of a measure there.
        point = rng.choice(list(table.rows.values()))
        count = dims + (kind == 1)
        where = " AND ".join(f"{names[i]} = {point[i]}" for i in range(count))
        return f"DELETE FROM t WHERE {where};", lambda at: [f"-- deleted {table.delete(lambda row: row[:count] == point[:count])}"]
    if kind == 4:
        least = rng.randrange(5)
        return f"DELETE FROM t WHERE m >= {least};", lambda at: [f"-- deleted {table.delete(lambda row: row[dims] >= least)}"]
    if kind == 5 and table.rows:
        # All but one value of a dimension.
        dim = rng.randrange(dims)
        kept = rng.choice(list(table.rows.values()))[dim]
        where = rng.choice([f"{names[dim]} <> {kept}", f"NOT {names[dim]} = {kept}", f"{names[dim]} < {kept} OR {names[dim]} > {kept}"])
        return f"DELETE FROM t WHERE {where};", lambda at: [f"-- deleted {table.delete(lambda row: row[dim] != kept)}"]
    boxes = [random_box(rng, dims) for _ in range(rng.choice([1, 1, 2]))]
    least = rng.choice([None, None, None, 2])
    statement = f"DELETE FROM t WHERE {where_of(boxes, least, names)};"
    return statement, lambda at: [f"-- deleted {table.delete(lambda row: is_chosen(row, dims, boxes, least))}"]


def query(rng, table):
    statement, lines = rng.choice([query_of_rows, query_of_groups])(rng, table.shape)
    return statement, lambda at: lines(table.in_order(), table.regions)


def explanation(rng, table):
    dims, names = table.shape.dims, table.shape.names
    box = random_box(rng, dims)
    least = rng.choice([None, None, 2])
    dim, down = rng.randrange(dims), rng.random() < 0.5
    is_sweep = rng.random() < 0.5
    statement = f"EXPLAIN SELECT * FROM t WHERE {where_of([box], least, names)}"
    if is_sweep:
        statement += f" ORDER BY {names[dim]}" + (" DESC" if down else "")

    def lines(at):
        points = 1
        for low, high in box:
            points *= min(high, GREATEST) - low + 1
        return [
            f"plan sweep {names[dim]} {'desc' if down else 'asc'}" if is_sweep else "plan scan",
            "cover exact" if least is None else "cover partial",
            "filter no" if least is None else "filter yes",
            "box " + ", ".join(f"{name} {low}..{high}" for name, (low, high) in zip(names, box)),
            f"points {points}",
            f"regions {met_by(table.regions, dims, [box])} of {len(table.regions)}",
        ]

    return statement + ";", lines


def refused(rng, table):
    """A statement that is refused, and changes nothing."""
    row = [str(value) for value in random_row(rng, table.shape.dims)]
    count = len(row)
    head = "INSERT INTO t VALUES ("
    kind = rng.randrange(7)
    if kind == 0:
        text = head + ", ".join(row[:-1])
        return text + ");", lambda at: [f"! ValueCount at {at + len(text)}"]
    if kind == 1:
        more = row + [str(rng.randrange(-9, 9)) for _ in range(rng.randint(1, 12))]
        place = len(head + ", ".join(row) + ", ")
        return head + ", ".join(more) + ");", lambda at: [f"! ValueCount at {at + place}"]
    if kind == 2:
        place = rng.randrange(count)
        row[place] = rng.choice(["-9223372036854775809", "9223372036854775808"] if place == count - 1 else ["-1", "4294967296", "- 7"])
        begin = len(head + "".join(value + ", " for value in row[:place]))
        return head + ", ".join(row) + ");", lambda at: [f"! ValueRange at {at + begin}"]
    if kind == 3:
        return f"INSERT INTO u VALUES ({', '.join(row)});", lambda at: [f"! UnknownTable at {at + 12}"]
    if kind == 4:
        return "DELETE FROM t WHERE q = 1;", lambda at: [f"! UnknownColumn at {at + 20}"]
    if kind == 5:
        return "DELETE FROM t LIMIT 1;", lambda at: [f"! Syntax at {at + 14}"]
    return "EXPLAIN DELETE FROM t;", lambda at: [f"! Syntax at {at + 8}"]


KINDS = [(insertion, 45), (deletion, 16), (query, 22), (everything, 4), (explanation, 8), (refused, 5)]


def some_kinds(rng):
    return rng.choices([kind for kind, _ in KINDS], [weight for _, weight in KINDS], k=rng.randint(1, 15))


def random_runs(rng, table, parts, counts):
    """The command lines of so many runs of random scripts, parted by appends where they are several."""
    for part in range(parts):
        script = Script()
        for kind in some_kinds(rng) + [everything] * (part == parts - 1):
            if kind is insertion and parts > 1 and rng.randrange(3) == 0:
                yield script.line("run table.ub script.sql")
                script = Script()
                text, told = appending(rng, table)
                yield "append table.ub script.sql", {"script.sql": text}, told, 0
                counts["appending"] += 1
                continue
            script.add(rng, table, kind, kind is refused, counts)
            script.text += rng.choice([" ", "\n", " -- INSERT\n"])
        yield script.line("run table.ub script.sql")


def case(rng, parts, counts):
    """The text of a table, and the command lines of a script: in one run on a table in memory, or in several on a table file."""
    dims = rng.randint(1, 3)
    shape = small_shape(dims, rng.choice([2, 2, 3, 4, 5]))
    table = Table(shape, [random_row(rng, dims) for _ in range(rng.choice([0, 0, 3, 8, 14]))])
    data, loaded = table.text(), table.told_loaded()
    runs = list(random_runs(rng, table, parts, counts))
    if parts == 1:
        return data, [(f"try data.csv script.sql {shape.words()}", *runs[0][1:])]
    return data, [(f"load data.csv table.ub {shape.words()}", {"script.sql": ""}, loaded, 0)] + runs


def cases(count, rng, counts):
    return (case(rng, rng.randint(2, 4) if i % 2 else 1, counts) for i in range(count))


def print_transcript(count, rng, counts):
    for data, lines in cases(count, rng, counts):
        print(f"== data.csv\n{data}", end="")
        for words, texts, text, status in lines:
            print(f"== script.sql\n{texts['script.sql']}\n$ {words}\n{text}? {status}\n")


def is_right(tried, case, work):
    """Whether all command lines of a script write what they must."""
    data, lines = case
    return all(ends_so(tried, (words, {"data.csv": data, **texts}, *rest), work) for words, texts, *rest in lines)


if __name__ == "__main__":
    sys.exit(try_cases("changes.py", cases, is_right, print_transcript))
