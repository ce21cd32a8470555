#!/usr/bin/env python3
"""Types at examples/ubq-ask through a terminal of its own (a pty), and holds what is shown against what must be: prompts, answers, refusals,
`.schema`, the history, what Ctrl-C and Ctrl-D do, a table that can't be asked, and words by examples/words.py. Then through pipes.

Run by hand: tests/terminal.py [PROGRAM]. It tells what was shown where it is wrong, and how many were right and wrong.
"""
import fcntl
import os
import pty
import select
import shutil
import signal
import struct
import subprocess
import sys
import tempfile
import termios
import time

from lib.program import FIVE_ROWS, TOP, counts, judge, program

ASK = os.path.join(TOP, "examples", "ubq-ask")
WORDS = os.path.join(TOP, "examples", "words.py")
FIRST, MORE = "ubq> ", "...> "
UP, CTRL_C, CTRL_D = "\x10", "\x03", "\x04"


class Terminal:
    """ubq-ask at the other end of a pty."""

    def __init__(self, env, *words):
        self.seen = ""
        self.child, self.end = pty.fork()
        if self.child == 0:
            # A shell that runs this in the background has Ctrl-C ignored, by all that it starts.
            signal.signal(signal.SIGINT, signal.SIG_DFL)
            # So wide that no line is shown in part.
            fcntl.ioctl(0, termios.TIOCSWINSZ, struct.pack("HHHH", 50, 400, 0, 0))
            os.execve(ASK, [ASK, *words], env)

    def until(self, text, seconds=20):
        """What is shown up to this text and with it, or, where it doesn't come, all that came."""
        end = time.monotonic() + seconds
        while text not in self.seen and time.monotonic() < end and self.hear(end - time.monotonic()):
            pass
        place = self.seen.find(text)
        cut = len(self.seen) if place < 0 else place + len(text)
        shown, self.seen = self.seen[:cut], self.seen[cut:]
        return shown

    def hear(self, seconds):
        if not select.select([self.end], [], [], max(0, seconds))[0]:
            return False
        try:
            got = os.read(self.end, 65536)
        except OSError:
            got = b""
        self.seen += got.decode(errors="replace").replace("\r\n", "\n")
        return got != b""

    def types(self, text):
        os.write(self.end, text.encode())

    def is_there(self, seconds):
        """Whether it still shows something, or waits, after so long."""
        end = time.monotonic() + seconds
        while time.monotonic() < end:
            if select.select([self.end], [], [], 0.1)[0] and not self.hear(0):
                return False
        return True

    def ended(self):
        """What is still shown, and how it ended: its status, or, below zero, the signal."""
        while self.hear(20):
            pass
        shown, self.seen = self.seen, ""
        status = os.waitstatus_to_exitcode(os.waitpid(self.child, 0)[1])
        os.close(self.end)
        return shown, status


def asks(terminal, what, typed, shown):
    """Types a line, and wants it shown, then this, and the first prompt again."""
    terminal.types(typed + "\n")
    seen = terminal.until(FIRST)
    judge(what, seen == typed + "\n" + shown + FIRST, seen)


def answer_of(tried, script):
    """What `ubq run` answers of s.ub meanwhile."""
    return subprocess.run([tried, "run", "s.ub", "-"], input=script, stdout=subprocess.PIPE, text=True, check=False).stdout


def at_a_terminal(env, tried):
    told = subprocess.run([tried, "describe", "s.ub"], stdout=subprocess.PIPE, text=True, check=True).stdout
    terminal = Terminal(env, "s.ub")
    judge("it begins with a prompt", terminal.until(FIRST) == FIRST)
    asks(terminal, "a statement is asked", "SELECT x, y FROM t WHERE x = 2;", "x,y\n2,3\n2,3\n-- rows 2, pages 3\n")
    asks(terminal, "its schema", ".schema", told)
    asks(terminal, "a refused one, with the hint that a terminal gets", "SELECT nix FROM t; ",
         "! UnknownColumn at 7\nubq: line 1, column 8: 'nix' is no column: the table has x, y, m\n"
         "    SELECT nix FROM t; \n           ^\n")
    asks(terminal, "a comment alone", "-- how many are there;", "")
    terminal.types("SELECT COUNT(*)\n")
    judge("it goes on to the semicolon", terminal.until(MORE) == "SELECT COUNT(*)\n" + MORE)
    terminal.types(".schema\n")
    judge("and .schema is one at the beginning alone", terminal.until(MORE) == ".schema\n" + MORE)
    asks(terminal, "what was typed is one text", ";",
         "! BadByte at 16\nubq: line 2, column 1: '.' is no sign of the language\n    .schema\n    ^\n"
         "    there are no decimals, and no table's name stands before a column\n")
    asks(terminal, "two statements in a line", "SELECT MIN(x) FROM t; SELECT MAX(m) FROM t;",
         "MIN(x)\n0\nMAX(m)\n20\n-- rows 1, pages 3\n-- rows 1, pages 3\n")
    terminal.types(UP + UP + UP + UP + "\n")
    shown = terminal.until(MORE)
    judge("what was typed comes back", shown.endswith("SELECT COUNT(*)\n" + MORE), shown)
    asks(terminal, "and is asked with what is typed to it", "FROM t;", "COUNT(*)\n5\n-- rows 1, pages 3\n")
    asks(terminal, "what is put in stands at once", "INSERT INTO t VALUES (7, 7, 7);", "-- inserted 6\n")
    answer = answer_of(tried, "SELECT m FROM t WHERE x = 7;")
    judge("and others see it meanwhile", answer == "m\n7\n-- rows 1, pages 2\n", answer)

    with open("s.ub", "rb") as table:
        fcntl.flock(table, fcntl.LOCK_EX)
        terminal.types("SELECT m FROM t;\n")
        shown = terminal.until("another program that uses s.ub\n")
        judge("what waits says so", shown.endswith("ubq: waiting for another program that uses s.ub\n"), shown)
        terminal.types(CTRL_C)
        shown = terminal.until(FIRST)
        judge("Ctrl-C stops what is asked", shown.endswith(FIRST) and "m\n7" not in shown, shown)
    asks(terminal, "and then it is asked again", "SELECT m FROM t WHERE x = 7;", "m\n7\n-- rows 1, pages 2\n")
    terminal.types("DELETE FROM t\n")
    terminal.until(MORE)
    # Where Ctrl-C comes just as bash begins to wait for a key, bash sees it with the next one: then it is typed once more, as a person would.
    terminal.types(CTRL_C)
    if terminal.is_there(3):
        terminal.types(CTRL_C)
    _, status = terminal.ended()
    judge("Ctrl-C at the prompt ends it", status == -signal.SIGINT, status)
    answer = answer_of(tried, "SELECT COUNT(*) FROM t;")
    judge("and what was half typed isn't done", answer.startswith("COUNT(*)\n6\n"), answer)


def endings(env):
    for typed, what, wanted in [
        (".quit\n", ".quit", ".quit\n"),
        (CTRL_D, "Ctrl-D", "\n"),
    ]:
        terminal = Terminal(env, "s.ub")
        terminal.until(FIRST)
        terminal.types(typed)
        ended = terminal.ended()
        judge(f"{what} ends it", ended[1] == 0 and ended[0].strip() == wanted.strip(), ended)
    terminal = Terminal(env, "s.ub")
    terminal.until(FIRST)
    terminal.types("DELETE FROM t\n")
    terminal.until(MORE)
    terminal.types(CTRL_D)
    shown, status = terminal.ended()
    judge("Ctrl-D in the middle asks nothing, and says so",
          status == 1 and shown.strip() == "ubq-ask: what was typed last ends with no semicolon, and was not asked", shown)
    shown, status = Terminal(env, "nix.ub").ended()
    judge("a table that isn't there", status == 4 and "! Device\n" in shown and FIRST not in shown, shown)
    shown, status = Terminal(env, ASK).ended()
    judge("a file that is no table", status == 3 and shown.startswith("! "), shown)
    shown, status = Terminal(env).ended()
    judge("no table is named", status == 2 and "ubq-ask TABLE [WORDS]" in shown, shown)


def in_words(env):
    terminal = Terminal(env, "w.ub", "w.words")
    terminal.until(FIRST)
    asks(terminal, "words", "SELECT date, town, SUM(euros) FROM t WHERE date >= '2026-06-02' GROUP BY date, town;",
         "date,town,SUM(euros)\n2026-06-02,Köln,4.50\n2026-06-03,Bonn,-1.00\n-- rows 2, pages 1\n")
    asks(terminal, "a word that isn't there", "SELECT * FROM t WHERE town = 'Ulm';", "words.py: town: 'Ulm' was never seen\n")
    asks(terminal, "a refused one", "SELECT nix FROM t;", "! UnknownColumn at 7\n")
    asks(terminal, "rows are taken out", "DELETE FROM t WHERE town = 'Bonn';", "-- deleted 2\n")
    terminal.types(CTRL_D)
    judge("it ends", terminal.ended()[1] == 0)


def through_pipes(env):
    unasked = "ubq-ask: what was typed last ends with no semicolon, and was not asked\n"
    for typed, wanted in [
        ("SELECT x FROM t\nWHERE y = 0;\n.quit\nSELECT 1;\n", (0, "x\n3\n", "-- rows 1, pages 3\n")),
        ("SELECT x FROM t WHERE y = 0;", (0, "x\n3\n", "-- rows 1, pages 3\n")),
        ("SELECT x FROM t WHERE y = 0;\nSELECT", (1, "x\n3\n", "-- rows 1, pages 3\n" + unasked)),
        ("\n", (0, "", "")),
    ]:
        ended = subprocess.run([ASK, "p.ub"], input=typed, capture_output=True, text=True, check=False, env=env)
        judge("through pipes", (ended.returncode, ended.stdout, ended.stderr) == wanted, ended)


def main():
    tried = program()
    env = {name: value for name, value in os.environ.items() if name not in ("PS1", "HISTFILE", "INPUTRC")}
    env.update(UBQ=tried, TERM="dumb", INPUTRC="/dev/null", LC_ALL="C.UTF-8")
    with tempfile.TemporaryDirectory() as work:
        os.chdir(work)
        load = ["load", "--dims", "2", "--page-rows", "2"]
        subprocess.run([tried, *load, FIVE_ROWS, "s.ub"], stdout=subprocess.DEVNULL, check=True)
        shutil.copy("s.ub", "p.ub")
        subprocess.run([WORDS, "new", "w.words", "--spread", "2", "date:date", "town:word", "euros:2"], check=True)
        plain = subprocess.run([WORDS, "in", "w.words"], check=True, stdout=subprocess.PIPE, input=(
            "date,town,euros\n2026-06-01,Bonn,1\n2026-06-02,Köln,2.25\n2026-06-02,Köln,2.25\n2026-06-03,Bonn,-1\n").encode()).stdout
        subprocess.run([tried, "load", "--dims", "2", "-", "w.ub"], input=plain, stdout=subprocess.DEVNULL, check=True)
        at_a_terminal(env, tried)
        endings(env)
        in_words(env)
        through_pipes(env)
        os.chdir(TOP)
    print(f"terminal: {counts['right']} right, {counts['wrong']} wrong")
    return counts["wrong"] > 0


if __name__ == "__main__":
    sys.exit(main())
