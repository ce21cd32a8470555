#!/usr/bin/env python3
"""Makes each allocation of the program fail in turn, by hand. It runs `try`, `load` and `run` on the table of five rows and a script with a statement
of every kind, and then `run` of a script that changes the table, `append` of two rows, of which one parts a region, and `query` of an INSERT, each
time on a new copy of it; `describe` and `check` of it, and of the same in format 1; `upgrade` of that table in formats 1 and 2; and `run` of sweeps
of rows and of groups, with a LIMIT and with none, over tables whose index has two levels and three, and over one whose leaves lead to 86 regions and
more. It says how many runs told `! Memory` after whole texts of first statements, how many did without, and how many did anything else (which is
wrong). A table that was changed must then open, and hold what those statements left, but for the first rows of a DELETE that was stopped; where
memory for a changed page was refused, which ends as `! Device`, it must be as it was. The old file of an upgrade must be as it was, and after a
refusal the new one too, and so must each table that is described, checked or swept.

    tests/each_allocation.py [PROGRAM]      (needs cc)"""
import pathlib
import re
import shutil
import sys
import tempfile

from lib import failing_memory, pages
from lib.program import FIVE_ROWS, program as program_of

SCRIPT = """SELECT * FROM t;
SELECT m, x FROM t WHERE x >= 2 AND y >= 2 OR m < 8;
SELECT m FROM t WHERE NOT m > 4 ORDER BY m DESC LIMIT 2;
SELECT x, y FROM t ORDER BY x LIMIT 1;
SELECT * FROM t ORDER BY x DESC, m LIMIT 2;
SELECT * FROM t ORDER BY y, x DESC, m;
SELECT COUNT(*), SUM(m), MIN(x), MAX(y) FROM t WHERE y > 0;
SELECT x, COUNT(*), SUM(m) FROM t GROUP BY x ORDER BY SUM(m) DESC LIMIT 3;
SELECT x, y, MIN(m) FROM t GROUP BY x, y;
SELECT m FROM t WHERE x > 4294967295;
SELECT COUNT(*) FROM t LIMIT 0;
EXPLAIN SELECT * FROM t WHERE x <= 2 OR y >= 2;
EXPLAIN SELECT x FROM t WHERE m = 1 ORDER BY y DESC LIMIT 1;
SELECT z FROM t;
SELECT y, SUM(m) FROM t GROUP BY x;
SELECT FROM t;
"""
# The INSERT parts a region, and the DELETE takes its row, 2 and 5 out again, and joins two regions.
CHANGES = """INSERT INTO t VALUES (2, 3, -4);
INSERT INTO t VALUES (1, 2);
DELETE FROM t WHERE x = 2;
INSERT INTO t VALUES (0, 0, 0);
"""
ROWS = {1: "1,1,10", 2: "2,3,20", 3: "3,0,5", 4: "0,2,7", 5: "2,3,1", 6: "2,3,-4", 7: "0,0,0"}
FIVE, SIX, LEFT = (1, 2, 3, 4, 5), (1, 2, 3, 4, 5, 6), (1, 3, 4)
# The numbers of the rows that a table may have after so many of these statements were told.
AFTER = {
    "run": [[FIVE], [SIX], [SIX, (1, 3, 4, 5, 6), (1, 3, 4, 6), LEFT], [LEFT], [LEFT + (7,)]],
    # All rows are in, or none.
    "append": [[FIVE], [SIX + (7,)]],
    # Where memory for the text was refused, what the statement did stands, and isn't told.
    "query": [[FIVE, SIX], [SIX]],
}
APPENDED = "m,y,x\n-4,3,2\n0,0,0\n"
INSERTS = "INSERT INTO t VALUES (2, 3, -4);"
# The commands that write one text, of a table that they leave as it is.
ASKING = ["describe", "check"]
# Those that write one text, and nothing where memory is refused.
ONE_TEXT = ASKING + ["append"]
# Sweeps: rows and groups, up and down, with a LIMIT and with none.
SWEEPS = """SELECT m FROM t WHERE x < 4 AND y < 4 ORDER BY x LIMIT 3;
SELECT m FROM t WHERE x < 4 AND y < 4 ORDER BY y DESC, m;
SELECT x, COUNT(*) FROM t WHERE x < 4 AND y < 4 GROUP BY x LIMIT 2;
SELECT y, SUM(m) FROM t WHERE x < 4 AND y < 4 GROUP BY y ORDER BY y DESC LIMIT 3;
SELECT y, x, COUNT(*) FROM t GROUP BY y, x;
"""
WIDE_SWEEPS = """SELECT x FROM t ORDER BY x LIMIT 3;
SELECT x FROM t WHERE x < 400 ORDER BY x DESC LIMIT 3;
SELECT x FROM t ORDER BY x;
SELECT x, COUNT(*) FROM t GROUP BY x LIMIT 3;
SELECT x, COUNT(*) FROM t GROUP BY x;
"""
MEMORY, DEVICE = 5, 4
NOT_KEPT = "ubq: nothing was kept in copy.ub: "
OLD = pathlib.Path(__file__).resolve().parent / "old"
OLDER = {"one.ub": OLD / "s.ub", "two.ub": OLD / "format_2" / "s.ub"}
ROUND = 40  # so many runs that did without the allocation, one after the other, end a command's round


def table_of_levels(levels):
    """The bytes of a table of the points whose coordinates are 0 to 3, two in each region, over an index of two levels or of three: each leaf
    leads to two regions, and the root to all four leaves, or to two pages that lead to two of them each. The row at the address z has the number
    z + 1, which is its measure too. The root is on page 1."""
    points = [(2 * (z >> 3) + (z >> 1 & 1), 2 * (z >> 2 & 1) + (z & 1)) for z in range(16)]
    rows = [(z + 1, point, (z + 1,)) for z, point in enumerate(points)]
    regions = [pages.region_page(2, 1, (z, 0), rows[z : z + 2]) for z in range(0, 16, 2)]
    leaves = [pages.index_page(1, [((z, 0), 8 + z // 2), ((z + 2, 0), 9 + z // 2)]) for z in range(0, 16, 4)]
    to_leaves = [((z, 0), 4 + z // 4) for z in range(0, 16, 4)]
    middle = [pages.index_page(2, to_leaves[:2]), pages.index_page(2, to_leaves[2:])]
    root = pages.index_page(levels, to_leaves if levels == 2 else [((0, 0), 2), ((8, 0), 3)])
    header = pages.header_page(3, 2, 1, 2, 0, [17, 16, 8, 1, levels], [b"t", b"x", b"y", b"m"])
    return b"".join([header, root] + middle + leaves + regions)


def first_texts(text):
    """The texts of the first statements, as many as there are."""
    texts, so_far = [""], ""
    for line in text.splitlines(True):
        so_far += line
        if re.match(r"-- rows|-- inserted|-- deleted|-- appended|regions |! ", line):
            texts.append(so_far)
    return texts


def has_rows(text, numbers):
    """Whether this is the text of all rows of these numbers."""
    return text.split("-- ")[0] == "".join(line + "\n" for line in ["x,y,m"] + [ROWS[number] for number in numbers])


def main():
    program = program_of()
    refusals = wrong = 0
    with tempfile.TemporaryDirectory() as work:
        library = failing_memory.built(work)
        shutil.copy(FIVE_ROWS, pathlib.Path(work, "s.csv"))
        pathlib.Path(work, "every.sql").write_text(SCRIPT)
        pathlib.Path(work, "changes.sql").write_text(CHANGES)
        pathlib.Path(work, "more.csv").write_text(APPENDED)
        pathlib.Path(work, "all.sql").write_text("SELECT * FROM t;")
        pathlib.Path(work, "sweeps.sql").write_text(SWEEPS)
        pathlib.Path(work, "wide.sql").write_text(WIDE_SWEEPS)
        pathlib.Path(work, "wide.csv").write_text("".join(f"{line}\n" for line in ["x", *range(400)]))
        for levels in (2, 3):
            pathlib.Path(work, f"levels_{levels}.ub").write_bytes(table_of_levels(levels))

        def run(words, due):
            if words[1] == "copy.ub":
                shutil.copy(pathlib.Path(work, "s.ub"), pathlib.Path(work, "copy.ub"))
            if words[0] == "upgrade":
                pathlib.Path(work, "new.ub").write_text("what stood here")
            status, text, errors = failing_memory.ended(library, [program] + words, due, work)
            if words[0] == "query":
                # Its notes come behind its answers; what else is told of a file stands beside them.
                lines = errors.splitlines(True)
                text += "".join(line for line in lines if line.startswith(("-- ", "! ")))
                errors = "".join(line for line in lines if not line.startswith(("-- ", "! ")))
            return status, text, errors

        def is_upgraded_well(old, text):
            """Whether the old file is as it was, and the new one has its rows, or else is as it was where memory was refused."""
            if pathlib.Path(work, old).read_bytes() != OLDER[old].read_bytes():
                return False
            if text == "! Memory\n":
                return pathlib.Path(work, "new.ub").read_bytes() == b"what stood here"
            status, rows, _ = failing_memory.ended(library, [program, "run", "new.ub", "all.sql"], 0, work)
            return status == 0 and has_rows(rows, FIVE)

        def is_left_well(words, text):
            """Whether the table that was changed opens, and has what the statements left of which this is the text."""
            if words[0] == "upgrade":
                return is_upgraded_well(words[1], text)
            if words[0] in ASKING or words[1] in swept:
                return pathlib.Path(work, words[1]).read_bytes() == asked[words[1]]
            if words[1] != "copy.ub":
                return True
            status, rows, _ = failing_memory.ended(library, [program, "run", "copy.ub", "all.sql"], 0, work)
            if text.endswith("! Device\n"):
                return status == 0 and has_rows(rows, FIVE)
            told = first_texts(text.removesuffix("! Memory\n"))
            return status == 0 and any(has_rows(rows, numbers) for numbers in AFTER[words[0]][len(told) - 1])

        table = ["--dims", "2", "--page-rows", "2"]
        scripts = [["try", "s.csv", "every.sql"] + table, ["load", "s.csv", "s.ub"] + table]
        scripts += [["run", "s.ub", "every.sql"], ["run", "copy.ub", "changes.sql"]]
        scripts += [["append", "copy.ub", "more.csv"], ["query", "copy.ub", INSERTS]]
        scripts += [[asking, "s.ub"] for asking in ASKING] + [["describe", "one.ub"]]
        for old, file in OLDER.items():
            shutil.copy(file, pathlib.Path(work, old))
            scripts.append(["upgrade", old, "new.ub"])
        run(["load", "wide.csv", "wide.ub", "--dims", "1", "--page-rows", "2"], 0)
        swept = {"levels_2.ub": "sweeps.sql", "levels_3.ub": "sweeps.sql", "wide.ub": "wide.sql"}
        scripts += [["run", name, script] for name, script in swept.items()]
        for words in scripts:
            if words[0] == "run" or words[0] in ASKING:
                run(["load", "s.csv", "s.ub"] + table, 0)
            asked = {name: pathlib.Path(work, name).read_bytes() for name in ["s.ub", "one.ub", *swept] if name == words[1]}
            status, text, _ = run(words, 0)
            assert words[1] not in swept or status == 0 and text.count("-- rows") == 5, text
            told = {first + "! Memory\n" for first in ([""] if words[0] in ONE_TEXT else first_texts(text))}
            refused = without = odd = due = since = 0
            while since < ROUND:
                due += 1
                ended = run(words, due)
                if not is_left_well(words, ended[1]):
                    odd += 1
                    print(f"{words[0]}: allocation {due}: the table isn't what {ended[1][-80:]!r} left")
                if ended == (status, text, ""):
                    without += 1
                    since += 1
                    continue
                since = 0
                is_told = ended[1].replace("! Device", "! Memory") in told
                is_unkept = words[1] == "copy.ub" and ended[0] == DEVICE and is_told and ended[2].startswith(NOT_KEPT)
                if ended[0] == MEMORY and ended[1] in told and not ended[2] or is_unkept:
                    refused += 1
                else:
                    odd += 1
                    print(f"{words[0]}: allocation {due}: status {ended[0]}, {ended[1][-80:]!r} {ended[2][-80:]!r}")
            print(f"{words[0]} {words[1]}: {refused} told that memory was refused, {without} did without, {odd} wrong")
            refusals += refused
            wrong += odd
    print(f"each_allocation.py: {refusals} told that memory was refused, {wrong} wrong")
    return 1 if wrong else 0


if __name__ == "__main__":
    sys.exit(main())
