#!/usr/bin/env python3
"""Stops the real program in the middle of changes, on real files, and looks what is left: each call of the system of each kind that a change
makes is killed, or failed, in turn (by strace's injection), in a recovery too; each read of a page fails; runs are killed at random moments; the
disk is full, the folder takes no file, the journal is damaged or another table's; and several programs use one table at once.

After each the table must be as it was before or as it is to be, `check` must say yes, and what a command told of itself must be so.

Run by hand: tests/crash.py [KILLS [PROGRAM]]; KILLS random kills, 2000 where none are named. It needs strace, and for the full disk the right to
mount. The last line says how many trials were right and wrong."""
import os
import pathlib
import random
import re
import shutil
import signal
import subprocess
import sys
import tempfile
import time

from lib.program import program, word

CALLS = "pwrite64 fsync rename unlink ftruncate fchown chown fchmod chmod".split()
CHANGE = "INSERT INTO t VALUES (2, 3, -4); DELETE FROM t WHERE x >= 30; INSERT INTO t VALUES (7, 7, 7);"
NOTHING = "DELETE FROM t WHERE x = 4000000000;"
WRITTEN = "INSERT INTO t VALUES (39, 39, 39);"
ALL = "SELECT * FROM t;"


class Trials:
    def __init__(self, ubq, room):
        self.ubq, self.room, self.right, self.wrong = ubq, pathlib.Path(room), 0, 0
        self.counts = {}

    def judge(self, what, holds, more=""):
        kind = what.split(":")[0]
        self.counts[kind] = self.counts.get(kind, 0) + 1
        if holds:
            self.right += 1
        else:
            self.wrong += 1
            print(f"WRONG: {what} {more}", flush=True)

    def run(self, *words, text=None, before=()):
        return subprocess.run([*before, self.ubq, *words], cwd=self.room, input=text, capture_output=True, text=True)

    def rows(self, table):
        ran = self.run("run", table, "-", text=ALL)
        return ran.stdout if ran.returncode == 0 else f"{ran.stdout} status {ran.returncode} {ran.stderr}"

    def is_sound(self, table):
        ran = self.run("check", table)
        return ran.returncode == 0

    def put(self, table, rows):
        lines = "x,y,m\n" + "".join(f"{i % 40},{i * 7 % 50},{i}\n" for i in range(rows))
        ran = self.run("load", "-", table, "--dims", "2", "--page-rows", "4", text=lines)
        assert ran.returncode == 0, ran

    def clean(self, table):
        for name in (table, f"{table}-journal", f"{table}-journal.tmp"):
            (self.room / name).unlink(missing_ok=True)

    def copy(self, source, table):
        self.clean(table)
        for end in ("", "-journal", "-journal.tmp"):
            if (self.room / f"{source}{end}").exists():
                shutil.copyfile(self.room / f"{source}{end}", self.room / f"{table}{end}")

    def beside(self, table):
        return [end for end in ("-journal", "-journal.tmp") if (self.room / f"{table}{end}").exists()]

    def injected(self, call, how, nth, *words, text=None):
        """A run where the nth call of this kind is killed or fails; and whether that call came."""
        traced = self.room / "trace"
        words = ["strace", "-f", "-qq", "-o", str(traced), "-e", f"trace={call}", "-e", f"inject={call}:{how}:when={nth}", self.ubq, *words]
        ran = subprocess.run(words, cwd=self.room, input=text, capture_output=True, text=True)
        told = traced.read_text() if traced.exists() else ""
        return ran, "(INJECTED)" in told or "killed by SIGKILL" in told

    def look(self, what, table, before, after):
        """What is found after a run that was stopped; then a change finishes it."""
        rows = self.rows(table)
        self.judge(what, rows in (before, after) and self.is_sound(table), rows[-200:])
        ended = self.run("run", table, "-", text=NOTHING)
        self.judge(f"{what}, then a change", ended.stdout == "-- deleted 0\n" and not ended.returncode and self.rows(table) == rows, ended)
        self.judge(f"{what}, no journal beside", self.beside(table) in ([], ["-journal.tmp"]), self.beside(table))
        if self.beside(table):
            self.run("run", table, "-", text=WRITTEN)
            self.judge(f"{what}, no draft after what is written", not self.beside(table), self.beside(table))
        return rows


def killed_calls(trials, how, words, text, before, after, source):
    """Each call of each kind of a command over a copy of a table, killed or failed."""
    for call in CALLS:
        for nth in range(1, 400):
            trials.copy(source, "t.ub")
            ran, came = trials.injected(call, how, nth, *words, text=text)
            if not came:
                break
            what = f"{words[0]} {how}: {call} {nth}"
            if how.startswith("error"):
                told(trials, what, ran, before, after)
            elif trials.beside("t.ub") == ["-journal"]:
                recoveries(trials, what, before, after)
            trials.look(what, "t.ub", before, after)


def told(trials, what, ran, before, after):
    """What a run that failed tells of itself."""
    rows = trials.rows("t.ub")
    if ran.returncode == 4:
        nothing = re.match(r"ubq: (nothing was kept in|can't make) t\.ub: .+\n$", ran.stderr)
        beside = re.match(r"ubq: kept in t\.ub-journal, to be finished by the next change: .+\n$", ran.stderr)
        whole = re.match(r"ubq: kept in t\.ub: .+\n$", ran.stderr)
        left = trials.beside("t.ub")
        is_right = nothing and rows == before and not left or beside and rows == after and left == ["-journal"] or whole and rows == after and not left
        trials.judge(f"{what} tells", bool(is_right), (ran, left, rows[-100:]))
    else:
        trials.judge(f"{what} tells", ran.returncode == 0 and rows == after, (ran, rows[-100:]))


def unread_pages(trials, before):
    """Each read of a page fails in turn, in a run that puts a row in and then asks for all: what was kept is told."""
    text = "INSERT INTO t VALUES (1, 1, 77); SELECT * FROM t;"
    trials.copy("small.ub", "t.ub")
    trials.run("run", "t.ub", "-", text="INSERT INTO t VALUES (1, 1, 77);")
    after = trials.rows("t.ub")
    seen = set()
    for nth in range(1, 400):
        trials.copy("small.ub", "t.ub")
        ran, came = trials.injected("pread64", "error=EIO", nth, "run", "t.ub", "-", text=text)
        if not came:
            break
        if ran.returncode == 127:
            # (a library, which is read before the program begins)
            continue
        kept = re.match(r"ubq: kept in t\.ub(, up to a page that can't be read|-journal, to be finished by the next change): .+\n$", ran.stderr)
        lost = re.match(r"ubq: (can't (open|change|use) t\.ub|nothing was kept in t\.ub): .+\n$", ran.stderr)
        rows = trials.rows("t.ub")
        is_right = ran.returncode == 4 and ran.stdout.endswith("! Device\n") and (kept and rows == after or lost and rows == before)
        trials.judge(f"unread: read {nth} tells", bool(is_right) and trials.is_sound("t.ub"), (ran, rows[-100:]))
        seen.add(kept[1][:6] if kept else "lost")
    trials.judge("unread: rows were kept, put into the journal, and lost", seen == {", up t", "-journ", "lost"}, seen)


def recoveries(trials, what, before, after):
    """A change that finishes what was left is killed in turn at each of its calls."""
    trials.copy("t.ub", "left.ub")
    for call in ("pwrite64", "fsync", "unlink", "ftruncate"):
        for nth in range(1, 400):
            trials.copy("left.ub", "r.ub")
            _, came = trials.injected(call, "signal=KILL", nth, "run", "r.ub", "-", text=NOTHING)
            if not came:
                break
            trials.look(f"recovery: {what}, {call} {nth}", "r.ub", before, after)


def random_kills(trials, kills):
    rng = random.Random(1)
    trials.copy("many.ub", "k.ub")
    rows = trials.rows("k.ub").count("\n") - 2
    script = "".join(f"INSERT INTO t VALUES ({i % 40}, {i % 50}, {i});" for i in range(40))
    begun = time.monotonic()
    trials.copy("many.ub", "timed.ub")
    trials.run("run", "timed.ub", "-", text=script)
    whole = time.monotonic() - begun
    lost = 0
    for kill in range(kills):
        started = subprocess.Popen([trials.ubq, "run", "k.ub", "-"], cwd=trials.room, stdin=subprocess.PIPE, stdout=subprocess.DEVNULL, text=True)
        started.stdin.write(script)
        started.stdin.close()
        time.sleep(rng.random() * whole * 1.2)
        started.send_signal(signal.SIGKILL)
        status = started.wait()
        now = trials.rows("k.ub").count("\n") - 2
        is_right = now == rows + 40 or now == rows and status != 0
        lost += not is_right
        trials.judge(f"random kill: {kill}", is_right and (kill % 20 or trials.is_sound("k.ub")), (rows, now, status))
        rows = now
        if rows > 4000:
            trials.copy("many.ub", "k.ub")
            rows = trials.rows("k.ub").count("\n") - 2
    print(f"random kills: {kills}, lost {lost}")


def journals(trials, before, after):
    """Journals that are damaged, of another table, of an older state, beside no table, beside an older format."""
    for nth in range(1, 60):
        trials.copy("small.ub", "t.ub")
        trials.injected("fsync", "signal=KILL", nth, "run", "t.ub", "-", text=CHANGE)
        if trials.beside("t.ub") == ["-journal"]:
            break
    trials.judge("journal: a stopped run leaves one", trials.beside("t.ub") == ["-journal"])
    trials.copy("t.ub", "left.ub")
    journal = (trials.room / "left.ub-journal").read_bytes()
    for at in [0, 4, 8, 12, 100, 4096, 8192, 12288, len(journal) - 1]:
        trials.copy("left.ub", "t.ub")
        damaged = bytearray(journal)
        damaged[at] ^= 0x40
        (trials.room / "t.ub-journal").write_bytes(damaged)
        ran = trials.run("run", "t.ub", "-", text=NOTHING)
        asked = trials.run("run", "t.ub", "-", text=ALL)
        refused = ran.stdout == "! BadJournal\n" and ran.returncode == 3 and (trials.room / "t.ub-journal").read_bytes() == bytes(damaged)
        if at in (0, 4, 100):
            trials.judge(f"journal: byte {at} changed", refused and asked.stdout in (before, "! Unclean page 0\n"), (ran, asked))
    for size in [0, 1, 4095, 4096, 8192, 12288, len(journal) - 4096, len(journal) - 1, len(journal) + 4096]:
        trials.copy("left.ub", "t.ub")
        (trials.room / "t.ub-journal").write_bytes((journal + bytes(4096))[:size])
        ran = trials.run("run", "t.ub", "-", text=NOTHING)
        load = trials.run("load", "-", "t.ub", "--dims", "1", text="x\n1\n")
        trials.judge(f"journal: cut to {size}", ran.stdout == load.stdout == "! BadJournal\n" and ran.returncode == load.returncode == 3, (ran, load))
    trials.copy("many.ub", "t.ub")
    (trials.room / "t.ub-journal").write_bytes(journal)
    rows = trials.rows("t.ub")
    ran = trials.run("run", "t.ub", "-", text=NOTHING)
    trials.judge("journal: another table's", rows == trials.rows("many.ub") and ran.stdout == "! BadJournal\n" and trials.is_sound("t.ub"), ran)
    trials.copy("left.ub", "t.ub")
    trials.run("run", "t.ub", "-", text=NOTHING)
    trials.run("run", "t.ub", "-", text="INSERT INTO t VALUES (1, 1, 1);")
    rows = trials.rows("t.ub")
    (trials.room / "t.ub-journal").write_bytes(journal)
    ran = trials.run("run", "t.ub", "-", text=NOTHING)
    trials.judge("journal: of an older state", trials.rows("t.ub") == rows and ran.stdout == "! BadJournal\n", ran)
    trials.clean("t.ub")
    (trials.room / "t.ub-journal").write_bytes(journal)
    ran = trials.run("load", "-", "t.ub", "--dims", "1", text="x\n1\n")
    asked = trials.run("run", "t.ub", "-", text=ALL)
    trials.judge("journal: beside no table", ran.stdout == "! BadJournal\n" and ran.returncode == 3 and asked.stdout == "! Device\n", (ran, asked))
    trials.clean("t.ub")
    shutil.copyfile(pathlib.Path(__file__).parent / "old" / "s.ub", trials.room / "t.ub")
    (trials.room / "t.ub-journal").write_bytes(journal)
    ran = trials.run("run", "t.ub", "-", text=NOTHING)
    asked = trials.run("run", "t.ub", "-", text=ALL)
    trials.judge("journal: beside an older format", ran.stdout == "! BadJournal\n" and asked.stdout == "! OldFormat page 0\n", (ran, asked))
    trials.clean("t.ub")
    shutil.copyfile(trials.room / "left.ub", trials.room / "moved.ub")
    shutil.copyfile(trials.room / "left.ub-journal", trials.room / "moved.ub-journal")
    trials.judge("journal: moved with its table", trials.rows("moved.ub") == after, trials.rows("moved.ub")[-100:])


def folders(trials, before, after):
    """A folder that takes no file, a link, modes, a full disk."""
    if os.geteuid() != 0:
        trials.copy("small.ub", "t.ub")
        os.chmod(trials.room, 0o555)
        ran = trials.run("run", "t.ub", "-", text=CHANGE)
        rows = trials.rows("t.ub")
        os.chmod(trials.room, 0o755)
        trials.judge("folder: that takes no file", ran.returncode == 4 and rows == before, ran)
    trials.copy("small.ub", "t.ub")
    os.chmod(trials.room / "t.ub", 0o640)
    inode = (trials.room / "t.ub").stat().st_ino
    (trials.room / "far").mkdir(exist_ok=True)
    (trials.room / "far" / "link.ub").unlink(missing_ok=True)
    (trials.room / "far" / "link.ub").symlink_to("../t.ub")
    ran = trials.run("run", "far/link.ub", "-", text=CHANGE)
    stat = (trials.room / "t.ub").stat()
    trials.judge("folder: a link is followed, inode and mode stay", ran.returncode == 0 and trials.rows("t.ub") == after and stat.st_ino == inode
                 and stat.st_mode & 0o777 == 0o640 and sorted(os.listdir(trials.room / "far")) == ["link.ub"], ran)
    trials.copy("small.ub", "t.ub")
    os.chmod(trials.room / "t.ub", 0o600)
    trials.injected("fchown", "signal=KILL", 1, "run", "t.ub", "-", text=CHANGE)
    draft = (trials.room / "t.ub-journal.tmp").stat()
    trials.judge("folder: a draft shows nothing of a private table", draft.st_mode & 0o077 == 0 and draft.st_size == 0, draft)
    trials.injected("fchmod", "signal=KILL", 2, "run", "t.ub", "-", text=CHANGE)
    trials.run("run", "t.ub", "-", text=CHANGE)
    trials.judge("folder: its mode is the table's", (trials.room / "t.ub").stat().st_mode & 0o777 == 0o600 and not trials.beside("t.ub"))
    disk = trials.room / "disk"
    disk.mkdir(exist_ok=True)
    if subprocess.run(["mount", "-t", "tmpfs", "-o", "size=256k", "tmpfs", disk], capture_output=True).returncode:
        print("skipped: a full disk (no right to mount)")
        return
    try:
        shutil.copyfile(trials.room / "small.ub", disk / "t.ub")
        (disk / "fill").write_bytes(bytes(256 * 1024 - os.stat(disk / "t.ub").st_size - 3 * 4096))
        ran = trials.run("run", "disk/t.ub", "-", text=CHANGE)
        trials.judge("folder: a full disk", ran.returncode == 4 and ran.stderr.startswith("ubq: nothing was kept in disk/t.ub: ")
                     and trials.rows("disk/t.ub") == before and sorted(os.listdir(disk)) == ["fill", "t.ub"], (ran, os.listdir(disk)))
        (disk / "fill").unlink()
        ran = trials.run("run", "disk/t.ub", "-", text=CHANGE)
        trials.judge("folder: room again", ran.returncode == 0 and trials.rows("disk/t.ub") == after, ran)
    finally:
        subprocess.run(["umount", disk], check=False)


def writers(trials):
    """Eight writers of 50 runs each and four readers at once; a waiting program; a stopped one."""
    trials.copy("small.ub", "w.ub")
    first = trials.rows("w.ub").count("\n") - 2
    write = 'for i in $(seq 50); do echo "INSERT INTO t VALUES ($1, $i, 1); INSERT INTO t VALUES ($1, $i, 2);" | "$0" run w.ub - || echo bad; done'
    read = 'for i in $(seq 50); do echo "SELECT COUNT(*) FROM t;" | "$0" run w.ub - | sed -n 2p; done'
    writing = [subprocess.Popen(["bash", "-c", write, trials.ubq, str(n)], cwd=trials.room, stdout=subprocess.PIPE, stderr=subprocess.PIPE, text=True) for n in range(8)]
    reading = [subprocess.Popen(["bash", "-c", read, trials.ubq], cwd=trials.room, stdout=subprocess.PIPE, stderr=subprocess.PIPE, text=True) for _ in range(4)]
    for started in writing:
        out, err = started.communicate()
        waits = set(err.splitlines()) <= {"ubq: waiting for another program that uses w.ub"}
        trials.judge("at once: a writer", "bad" not in out and out.count("-- inserted") == 100 and waits, (out[-200:], err[-200:]))
    for started in reading:
        out, _ = started.communicate()
        counts = [int(line) for line in out.split()]
        trials.judge("at once: a reader sees whole runs", len(counts) == 50 and all((n - first) % 2 == 0 for n in counts) and counts == sorted(counts), counts)
    trials.judge("at once: no run lost", trials.rows("w.ub").count("\n") - 2 == first + 800 and trials.is_sound("w.ub") and not trials.beside("w.ub"))
    slow = subprocess.Popen([trials.ubq, "run", "many.ub", "-"], cwd=trials.room, stdin=subprocess.PIPE, stdout=subprocess.PIPE, text=True)
    slow.stdin.write("SELECT * FROM t; " * 200 + "DELETE FROM t WHERE x = 4000000000;")
    slow.stdin.close()
    time.sleep(1)
    waiting = subprocess.Popen([trials.ubq, "run", "many.ub", "-"], cwd=trials.room, stdin=subprocess.PIPE, stdout=subprocess.PIPE, stderr=subprocess.PIPE, text=True)
    waiting.stdin.write("SELECT COUNT(*) FROM t;")
    waiting.stdin.close()
    time.sleep(1)
    is_waiting = waiting.poll() is None
    slow.kill()
    slow.wait()
    waiting.wait(60)
    told_so = waiting.stderr.read() == "ubq: waiting for another program that uses many.ub\n"
    trials.judge("at once: one that waits says so, and goes on when the other is killed", is_waiting and told_so and waiting.returncode == 0, (is_waiting, told_so))


def upgrades(trials):
    old = pathlib.Path(__file__).parent / "old" / "s.ub"
    for name in ("a.ub", "b.ub"):
        shutil.copyfile(old, trials.room / name)
    both = [subprocess.Popen([trials.ubq, "upgrade", one, two], cwd=trials.room, stdout=subprocess.PIPE, text=True) for one, two in (("a.ub", "b.ub"), ("b.ub", "a.ub"))]
    told = [started.communicate(timeout=60)[0] for started in both]
    trials.judge("upgrade: two that cross end", any(out.startswith("-- rows") for out in told), told)
    shutil.copyfile(old, trials.room / "u.ub")
    ran = trials.run("upgrade", "u.ub", "./u.ub")
    trials.judge("upgrade: over itself by another path", ran.stdout.startswith("-- rows") and trials.is_sound("u.ub"), ran)


def main():
    kills, ubq = int(word(1, 2000)), program(2)
    with tempfile.TemporaryDirectory() as room:
        trials = Trials(ubq, room)
        trials.put("small.ub", 30)
        trials.put("many.ub", 2000)
        trials.copy("small.ub", "t.ub")
        before = trials.rows("t.ub")
        assert trials.run("run", "t.ub", "-", text=CHANGE).returncode == 0
        after = trials.rows("t.ub")
        csv = "x,y,m\n" + "".join(f"{i},{i},{i}\n" for i in range(25))
        trials.copy("small.ub", "t.ub")
        assert trials.run("load", "-", "t.ub", "--dims", "2", "--page-rows", "4", text=csv).returncode == 0
        loaded = trials.rows("t.ub")
        for how in ("signal=KILL", "error=ENOSPC", "error=EIO"):
            killed_calls(trials, how, ("run", "t.ub", "-"), CHANGE, before, after, "small.ub")
            killed_calls(trials, how, ("load", "-", "t.ub", "--dims", "2", "--page-rows", "4"), csv, before, loaded, "small.ub")
        unread_pages(trials, before)
        journals(trials, before, after)
        folders(trials, before, after)
        writers(trials)
        upgrades(trials)
        random_kills(trials, kills)
    print("crash.py: " + ", ".join(f"{kind} {many}" for kind, many in sorted(trials.counts.items())))
    print(f"crash.py: {trials.right} right, {trials.wrong} wrong")
    return trials.wrong > 0


if __name__ == "__main__":
    sys.exit(main())
