#!/usr/bin/env python3
"""The same rows and queries in ubq, SQLite and PostgreSQL, side by side in one run, as tables in Markdown: one for each kind of question.

usage: bench/peers.py [--rows N] [--rounds N] [--only WORD] [--without postgres] [PROGRAM]      (default 200000 rows, 5 rounds)

SQLite has the rows three times: under one covering index over all columns, under an index for each dimension, and in its R*Tree;
PostgreSQL under an index for each dimension and one covering index, of which it takes what it likes best, with one process for a query.
A time is that of a session which asks the query many times, less that of one which asks nothing, each the least of the rounds, in each
of which every session has its turn. Pages are those of one query in a new process, of 4096 bytes: of ubq the region pages that it tells,
of SQLite the misses of its page cache, less those of a query of no table. The answers of all must have as many rows.

Where it runs as root, PostgreSQL's server runs as the user `postgres`; it listens at a socket in a new folder alone, and is gone with that
folder at the end. Where the package isn't there, the tables have no column for it. Keep the machine quiet."""

import argparse
import os
import pathlib
import re
import shutil
import subprocess
import sys
import tempfile
import time

from lib.asked import programs, write_table

MADE = "CREATE TABLE t(x INTEGER, y INTEGER, z INTEGER, kind INTEGER, amount INTEGER);"
COVERING = "CREATE INDEX all_of ON t(x, y, z, kind, amount);"
SINGLE = "CREATE INDEX of_x ON t(x); CREATE INDEX of_y ON t(y); CREATE INDEX of_z ON t(z);"
CACHE = "PRAGMA cache_size = -262144;"


def box(low, high, names="xyz"):
    """The bounds of a box: these in the named dimensions."""
    return [(name, low, high) for name in names]


# The kinds of questions, and of each: a name, how many times a session asks it at 200,000 rows, items, bounds, and the rest.
QUESTIONS = {
    "Boxes": [
        ("a small box", 500, "x, y, z", box(400000, 438000), ""),
        ("a box of a hundredth", 100, "SUM(amount)", box(300000, 526000), ""),
        ("a box of a tenth", 20, "SUM(amount)", box(200000, 686000), ""),
        ("a hundredth of one dimension", 50, "SUM(amount)", box(500000, 510485, "z"), ""),
        ("a tenth of two dimensions", 50, "SUM(amount)", box(500000, 604857, "yz"), ""),
    ],
    "Orders": [
        ("ORDER BY x LIMIT 10, all rows", 50, "x, y, z", [], "ORDER BY x LIMIT 10"),
        ("ORDER BY y LIMIT 10, all rows", 50, "x, y, z", [], "ORDER BY y LIMIT 10"),
        ("ORDER BY z LIMIT 10, a box of a tenth", 50, "x, y, z", box(200000, 686000), "ORDER BY z LIMIT 10"),
        ("ORDER BY x, a box of a tenth", 10, "x, y, z", box(200000, 686000), "ORDER BY x"),
    ],
    "Groups": [
        ("GROUP BY x LIMIT 20, all rows", 50, "x, COUNT(*), SUM(amount)", [], "GROUP BY x ORDER BY x LIMIT 20"),
        ("GROUP BY y LIMIT 20, a box of a fifth", 50, "y, COUNT(*), SUM(amount)", box(200000, 813000), "GROUP BY y ORDER BY y LIMIT 20"),
        ("groups of all rows", 5, "kind, SUM(amount)", [], "GROUP BY kind"),
    ],
    "All rows": [
        ("COUNT(*)", 10, "COUNT(*)", [], ""),
        ("SUM(amount)", 10, "SUM(amount)", [], ""),
        ("SUM, MIN and MAX", 10, "SUM(amount), MIN(amount), MAX(amount)", [], ""),
    ],
}


def query(items, bounds, rest):
    where = " AND ".join(f"{name} BETWEEN {low} AND {high}" for name, low, high in bounds)
    return f"SELECT {items} FROM t{' WHERE ' + where if where else ''}{' ' + rest if rest else ''};"


def query_of_boxes(items, bounds, rest):
    """The same of SQLite's R*Tree, which has two columns for a dimension."""
    where = " AND ".join(f"{name}0 >= {low} AND {name}1 <= {high}" for name, low, high in bounds)
    text = f"SELECT {items} FROM t{' WHERE ' + where if where else ''}{' ' + rest if rest else ''};"
    return re.sub(r"\b([xyz])\b", r"\g<1>0", text)


def run(words, text=None, **more):
    return subprocess.run(words, input=text, stdout=subprocess.PIPE, stderr=subprocess.DEVNULL, check=True, text=True, **more).stdout


class Ubq:
    name = "ubq"
    spelled = staticmethod(query)

    def __init__(self, program, work):
        self.program, self.table, self.script = program, str(work / "t.ub"), str(work / "script.sql")

    def load(self, data):
        run([self.program, "load", data, self.table, "--dims", "3"])

    def size(self):
        return os.path.getsize(self.table)

    def session(self, statements):
        pathlib.Path(self.script).write_text("\n".join(statements))
        return [self.program, "run", self.table, self.script]

    def pages(self, statement):
        return int(re.findall(r"pages (\d+)", run(self.session([statement])))[-1])

    def rows(self, statement):
        return int(re.findall(r"-- rows (\d+)", run(self.session([statement])))[-1])


class Sqlite:
    def __init__(self, name, made, work, spelled=query):
        self.name, self.made, self.spelled = f"SQLite, {name}", made, spelled
        self.file, self.script = str(work / f"{name.split()[0]}.db"), str(work / "script.sqlite")

    def load(self, data):
        run(["sqlite3", self.file, MADE, ".mode csv", f".import --skip 1 {data} t", self.made])

    def size(self):
        return os.path.getsize(self.file)

    def session(self, statements):
        pathlib.Path(self.script).write_text("\n".join([CACHE] + statements))
        return ["sqlite3", self.file, f".read {self.script}"]

    def misses(self, statement):
        told = run(["sqlite3", self.file, CACHE, ".stats on", statement])
        return int(re.findall(r"Page cache misses: *(\d+)", told)[-1])

    def pages(self, statement):
        return self.misses(statement) - self.misses("SELECT 1;")

    def rows(self, statement):
        return len(run(["sqlite3", self.file, statement]).splitlines())


class Postgres:
    name = "PostgreSQL"
    spelled = staticmethod(query)
    settings = ["listen_addresses=", "shared_buffers=1GB", "max_parallel_workers_per_gather=0", "jit=off", "work_mem=256MB", "autovacuum=off"]

    def __init__(self, work):
        self.folder, self.script = work / "postgres", str(work / "script.psql")
        self.as_user = ["runuser", "-u", "postgres", "--"] if os.geteuid() == 0 else []
        self.tool = {name: self.found(name) for name in ("initdb", "pg_ctl", "psql")}

    @staticmethod
    def found(name):
        """Where a tool of the package is: on the path, or where Debian puts them."""
        places = sorted(pathlib.Path("/usr/lib/postgresql").glob(f"*/bin/{name}"))
        return str(places[-1]) if places else shutil.which(name)

    def begin(self):
        """Whether the server runs."""
        if None in self.tool.values():
            return False
        self.folder.mkdir()
        os.chmod(self.folder.parent, 0o755)
        if self.as_user:
            shutil.chown(self.folder, "postgres")
        data = self.folder / "data"
        run(self.as_user + [self.tool["initdb"], "-D", data, "-A", "trust", "--locale=C"], cwd=self.folder)
        options = " ".join(f"-c {it}" for it in self.settings) + f" -k {self.folder}"
        # What it starts must not keep the pipe on which its words are read.
        started = subprocess.run(self.as_user + [self.tool["pg_ctl"], "-D", data, "-w", "-o", options, "-l", self.folder / "log", "start"],
                                 cwd=self.folder, stdin=subprocess.DEVNULL, stdout=subprocess.DEVNULL, stderr=subprocess.DEVNULL)
        return started.returncode == 0

    def end(self):
        if (self.folder / "data").exists():
            subprocess.run(self.as_user + [self.tool["pg_ctl"], "-D", self.folder / "data", "-m", "fast", "stop"], cwd=self.folder,
                           stdin=subprocess.DEVNULL, stdout=subprocess.DEVNULL, stderr=subprocess.DEVNULL)

    def words(self):
        return self.as_user + [self.tool["psql"], "-h", str(self.folder), "-d", "postgres", "-qAt"]

    def load(self, data):
        run(self.words(), f"{MADE}\n\\copy t from '{data}' with (format csv, header)\n{SINGLE}\n{COVERING}\nVACUUM ANALYZE t;\n")

    def size(self):
        return int(run(self.words() + ["-c", "SELECT pg_total_relation_size('t')"]))

    def session(self, statements):
        pathlib.Path(self.script).write_text("\n".join(statements))
        return self.words() + ["-f", self.script]

    def pages(self, statement):
        return None

    def rows(self, statement):
        return len(run(self.words() + ["-c", statement]).splitlines())


def seconds(words):
    begun = time.perf_counter()
    subprocess.run(words, check=True, stdout=subprocess.DEVNULL, stderr=subprocess.DEVNULL)
    return time.perf_counter() - begun


def least_by_turns(systems, statements, rounds):
    """The least seconds of a session of each system with these statements, and with none."""
    least = {(it.name, full): float("inf") for it in systems for full in (False, True)}
    for _ in range(rounds):
        for it in systems:
            for full in (False, True):
                words = it.session(statements[it.name] if full else [])
                least[it.name, full] = min(least[it.name, full], seconds(words))
    return least


def spelled_time(took):
    return f"{max(took, 0) * 1e6:.3g} µs" if took < 1e-3 else f"{took * 1e3:.3g} ms"


def row_of(systems, question, scale, rounds):
    """A line of the table: what one question takes in each system."""
    name, times, items, bounds, rest = question
    times = max(2, int(times * scale))
    one = {it.name: it.spelled(items, bounds, rest) for it in systems}
    counts = {it.name: it.rows(one[it.name]) for it in systems}
    if len(set(counts.values())) != 1:
        sys.exit(f"peers.py: the answers differ: {name}: {counts}")
    least = least_by_turns(systems, {key: [text] * times for key, text in one.items()}, rounds)
    cells = []
    for it in systems:
        took = (least[it.name, True] - least[it.name, False]) / times
        pages = it.pages(one[it.name])
        cells.append(spelled_time(took) + ("" if pages is None else f", {pages}"))
    return f"| {name} | " + " | ".join(cells) + " |"


def compare(systems, rows, rounds, only):
    """Prints the tables."""
    head = "".join(f" | {it.name}" for it in systems)
    for kind, questions in QUESTIONS.items():
        chosen = [question for question in questions if only in question[0]]
        if not chosen:
            continue
        print(f"\n| {kind}, {rows:,} rows (time, pages){head} |\n|{'---|' * (len(systems) + 1)}")
        for question in chosen:
            print(row_of(systems, question, min(1, 200000 / rows), rounds), flush=True)


def main():
    words = argparse.ArgumentParser(description=__doc__, formatter_class=argparse.RawDescriptionHelpFormatter)
    words.add_argument("program", nargs="?")
    words.add_argument("--rows", type=int, default=200000)
    words.add_argument("--rounds", type=int, default=5)
    words.add_argument("--only", default="")
    words.add_argument("--without", default="", choices=["", "postgres"])
    asked = words.parse_args()
    if shutil.which("sqlite3") is None:
        sys.exit("peers.py: no sqlite3 on the path")
    program = programs([asked.program] if asked.program else [])[0]
    tree = (
        "CREATE VIRTUAL TABLE r USING rtree_i32(id, x0, x1, y0, y1, z0, z1, +kind INTEGER, +amount INTEGER);"
        " INSERT INTO r SELECT rowid, x, x, y, y, z, z, kind, amount FROM t; DROP TABLE t; CREATE VIEW t AS SELECT * FROM r; VACUUM;"
    )
    with tempfile.TemporaryDirectory() as folder:
        work = pathlib.Path(folder)
        data = work / "data.csv"
        write_table(data, asked.rows)
        os.chmod(data, 0o644)
        systems = [
            Ubq(program, work),
            Sqlite("covering index", COVERING, work),
            Sqlite("index a dimension", SINGLE + " ANALYZE;", work),
            Sqlite("R*Tree", tree, work, query_of_boxes),
        ]
        postgres = Postgres(work)
        try:
            if asked.without != "postgres" and postgres.begin():
                systems.append(postgres)
            print(f"| Loading {asked.rows:,} rows | {' | '.join(it.name for it in systems)} |\n|{'---|' * (len(systems) + 1)}")
            begun = {}
            for it in systems:
                start = time.perf_counter()
                it.load(data)
                begun[it.name] = time.perf_counter() - start
            print("| time | " + " | ".join(spelled_time(begun[it.name]) for it in systems) + " |")
            print("| bytes | " + " | ".join(f"{it.size():,}" for it in systems) + " |")
            compare(systems, asked.rows, asked.rounds, asked.only)
        finally:
            postgres.end()


if __name__ == "__main__":
    main()
