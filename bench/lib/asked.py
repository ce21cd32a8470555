"""The programs that a script is given, the tables that it times them on, and the queries that it asks."""
import random
import subprocess
from pathlib import Path

TOP = Path(__file__).resolve().parent.parent.parent

ALL = "x >= 0"
HALF = "x BETWEEN 100000 AND 893700 AND y BETWEEN 100000 AND 893700 AND z BETWEEN 100000 AND 893700"
FIFTH = "x BETWEEN 200000 AND 813000 AND y BETWEEN 200000 AND 813000 AND z BETWEEN 200000 AND 813000"
TENTH = "x BETWEEN 200000 AND 686000 AND y BETWEEN 200000 AND 686000 AND z BETWEEN 200000 AND 686000"
TWENTIETH = "x BETWEEN 300000 AND 686292 AND y BETWEEN 300000 AND 686292 AND z BETWEEN 300000 AND 686292"
HUNDREDTH = "x BETWEEN 200000 AND 425000 AND y BETWEEN 200000 AND 425000 AND z BETWEEN 200000 AND 425000"
SMALL = "x BETWEEN 500000 AND 550000 AND y BETWEEN 500000 AND 550000 AND z BETWEEN 500000 AND 550000"
POINT = "x BETWEEN 500000 AND 505000 AND y BETWEEN 500000 AND 505000 AND z BETWEEN 500000 AND 505000"

# A name, how many times the script has the query, and the query.
QUERIES = [
    ("a box of which one page meets", 4000, f"SELECT * FROM t WHERE {POINT};"),
    ("a small box", 2000, f"SELECT * FROM t WHERE {SMALL};"),
    ("a box of a hundredth", 100, f"SELECT * FROM t WHERE {HUNDREDTH};"),
    ("a box of a tenth", 20, f"SELECT * FROM t WHERE {TENTH};"),
    ("one dimension alone, a hundredth", 50, "SELECT * FROM t WHERE y BETWEEN 500000 AND 510000;"),
    ("COUNT(*) over all", 20, "SELECT COUNT(*) FROM t;"),
    ("a box of a half", 4, f"SELECT * FROM t WHERE {HALF};"),
    ("SUM over all", 20, "SELECT SUM(amount) FROM t;"),
    ("SUM in a half", 20, f"SELECT SUM(amount) FROM t WHERE {HALF};"),
    ("SUM in a tenth", 50, f"SELECT SUM(amount) FROM t WHERE {TENTH};"),
    ("SUM, MIN, MAX over all", 20, "SELECT SUM(amount), MIN(amount), MAX(amount) FROM t;"),
    ("GROUP BY of 100 groups", 20, "SELECT kind, COUNT(*), SUM(amount) FROM t GROUP BY kind;"),
    ("GROUP BY a dimension, all groups", 4, "SELECT x, COUNT(*), SUM(amount) FROM t GROUP BY x;"),
    ("GROUP BY a dimension, LIMIT 20, in a fifth", 100, f"SELECT x, COUNT(*), SUM(amount) FROM t WHERE {FIFTH} GROUP BY x LIMIT 20;"),
    ("COUNT(*) with a comparison of a measure", 20, "SELECT COUNT(*) FROM t WHERE amount < 50000;"),
    ("ORDER BY a dimension, all rows (a sweep)", 4, f"SELECT * FROM t WHERE {ALL} ORDER BY x;"),
    ("ORDER BY a measure, all rows (a scan)", 4, f"SELECT * FROM t WHERE {ALL} ORDER BY amount;"),
    ("ORDER BY a measure, LIMIT 10, over all", 10, f"SELECT * FROM t WHERE {ALL} ORDER BY amount LIMIT 10;"),
    ("ORDER BY x, LIMIT 10, over all (a sweep)", 20, f"SELECT * FROM t WHERE {ALL} ORDER BY x LIMIT 10;"),
    ("ORDER BY y, LIMIT 10, over all (a sweep)", 20, f"SELECT * FROM t WHERE {ALL} ORDER BY y LIMIT 10;"),
    ("ORDER BY z, LIMIT 10, over all (a sweep)", 20, f"SELECT * FROM t WHERE {ALL} ORDER BY z LIMIT 10;"),
    ("ORDER BY x, LIMIT 10, in a half (a sweep)", 40, f"SELECT * FROM t WHERE {HALF} ORDER BY x LIMIT 10;"),
    ("ORDER BY a dimension, LIMIT 10, in a tenth (a sweep)", 100, f"SELECT * FROM t WHERE {TENTH} ORDER BY x LIMIT 10;"),
    ("GROUP BY x, LIMIT 20, over all (a sweep)", 20, f"SELECT x, COUNT(*), SUM(amount) FROM t WHERE {ALL} GROUP BY x LIMIT 20;"),
    ("a sweep of all rows with a comparison of a measure", 4, "SELECT * FROM t WHERE amount < 5000 ORDER BY x;"),
]


def programs(named):
    """The programs of these paths, or the proved one alone, which is proved and built first, where none is named."""
    if named:
        return [str(Path(path).resolve()) for path in named]
    subprocess.run([str(TOP / "bin" / "ubq"), "--prove"], check=True)
    return [str(TOP / "crates" / "ubq" / "out" / "ubq")]


def write_table(path, rows, *more):
    """Writes the table of bench/table.sh with so many rows."""
    with open(path, "wb") as file:
        subprocess.run(["bash", str(TOP / "bench" / "table.sh"), str(rows), *map(str, more)], stdout=file, check=True)


def random_rows(count, seed):
    """So many random rows of three dimensions and two measures."""
    rng = random.Random(seed)
    return [[rng.randrange(1 << 32) for _ in range(3)] + [rng.randrange(-1000, 1000) for _ in range(2)] for _ in range(count)]


def csv_of(rows):
    """Their CSV text."""
    return "x,y,z,m,n\n" + "".join(",".join(map(str, row)) + "\n" for row in rows)


def spelled(seconds):
    """A time as a table shows it."""
    if seconds < 1e-3:
        return f"{max(seconds, 0) * 1e6:.1f} µs"
    return f"{seconds * 1e3:.3g} ms"
