#!/usr/bin/env python3
"""Finds the goals of a crate that are proved only after searches in vain, and writes what proves each as its answer.

    docs/name_answers.py CRATE [FUNCTION..]

For a goal without an answer Rattle tries one tactic after the other; where the first ones fail, most of the goal's time is theirs. And at the
exit of each `?` it tries a costly one before any. This tries all of them for each such goal, by themselves, in one check that may leave holes
(so it takes three to four times as long as a check), and keeps in `proofs/../Answers.antt` the first that stands: at the exit of a `?` the one
lemma that says 'a clause on Ok says nothing of Err', elsewhere the tactic that Rattle came to late. What `search rules` proves gets no answer,
since that is tried first, and what none proves by itself is left as it is. FUNCTION is a part of a function's path, as `parting/split_rows`.

Where searches were a third of a crate's check (`ub_growing`) this halved them; a must-fail edit that leaves such a goal open is refused at once.
PROOF_NOTES, 'Time', says in which crates searches are much. The check must go through before, and is to be run again after it. An interrupt
leaves all candidates in the answers: `git checkout` takes them out."""
import collections
import pathlib
import re
import subprocess
import sys
import tempfile

TOP = pathlib.Path(__file__).resolve().parent.parent
DEFINED = re.compile(r"([^\s:(){}]+)((?: [^\s:={}()]+)*) =(.*)$")
SIGNED = re.compile(r"^(?:pub )?([^\s:(){}]+) : ", re.M)
IMPORTED = re.compile(r"^(?:pub )?use \S+?\.\{([^}]*)\}", re.M)
# What Rattle tries first at the exit of a `?`: the step of the code that made the error, and which part of its clause says so.
EXIT = re.compile(r"as_err (c[^\s()]*?)\.ensures((?:\.\d+)*)\)\.1\) steps")
# In which module each word of an answer is.
MODULES = {
    "Rattle.std.proofs.Common": ("rules", "arith"),
    "Rattle.std.proofs.lemmas.Grind": ("common_steps", "elements", "moves", "pieces"),
    "Rattle.std.proofs.lemmas.Result": ("IfOk-from_err",),
}
# A clause of a function may begin with so many variables.
MOST_VARIABLES = 4
MARK = re.compile(r"-- @(\d+) (\d+)$")


def definitions(text):
    """Each definition of a module that Rattle made: its name, its parameters and its body. Of a function over types they stand in a block, and an
    answer has these types as its first parameter."""
    in_block = re.search(r"^module _ ", text, re.M)
    if in_block:
        text = re.sub(r"^  ", "", text[in_block.start() :], flags=re.M)
    lines, at = text.split("\n"), 0
    while at < len(lines):
        begun, end = DEFINED.match(lines[at]), at + 1
        if begun and not lines[at].startswith(("use ", "pub use", "--", "module")):
            while end < len(lines) and lines[end][:1] in ("", " ", ")", "}"):
                end += 1
            given = ("g " if in_block else "") + begun[2].strip()
            yield begun[1], given, begun[3] + "\n" + "\n".join(lines[at + 1 : end])
        at = end


def is_answered(goal, names):
    """Whether a goal has an answer, or one for all of its clauses, or some of them have their own."""
    parts = goal.split("-clause-")
    return any("-clause-".join(parts[:n]) in names for n in range(1, len(parts) + 1)) or any(it.startswith(goal + "-clause-") for it in names)


def candidates(body):
    """What may prove a goal by itself, the cheapest first; and whether it is the exit of a `?`."""
    step = EXIT.search(body)
    if step:
        lemma = f"IfOk-from_err {step[1]}.result _ {step[1]}.ensures{step[2]}"
        return [("λ" + " _" * n + ". " if n else "") + lemma for n in range(MOST_VARIABLES + 1)] + ["search rules"], True
    later = [f"grind (arith, {it}) steps 2000000" for it in ("common_steps", "elements", "moves") if it in body]
    return ["search rules", "omega arith", *later, *(["search (pieces, arith) depth 5 fits 300"] if "pieces" in body else [])], False


def words_of(term):
    """The words of an answer that are to be imported."""
    return [it for names in MODULES.values() for it in names if re.search(rf"(?<![\w-]){re.escape(it)}(?![\w-])", term)]


def with_imports(text, terms, goals):
    """The text of a file of answers, with what these terms name, and the module of the function's goals."""
    there = {it.split(" as ")[-1].strip() for names in IMPORTED.findall(text) for it in names.split(",")}
    lines = text.split("\n")
    for module, names in MODULES.items():
        new = [it for it in names if it not in there and any(it in words_of(term) for term in terms)]
        at = next((n for n, line in enumerate(lines) if line.startswith(f"use {module}.{{")), None)
        if new and at is not None:
            lines[at] = lines[at].replace("{", "{" + ", ".join(new) + ", ", 1)
        elif new:
            last = max((n for n, line in enumerate(lines) if line.startswith("use Rattle.std.proofs.")), default=-1)
            lines.insert(last + 1, f"use {module}.{{{', '.join(new)}}}")
    if not any(line.startswith("use ") and line.endswith(".Goals as goal") for line in lines):
        lines.insert(max((n for n, line in enumerate(lines) if line.startswith("use ")), default=-1) + 1, f"use {goals}.Goals as goal")
    return "\n".join(lines).rstrip("\n") + "\n"


class Function:
    """A function of the crate, and its goals without an answer."""

    def __init__(self, crate, path, made):
        self.path, self.file = path, TOP / "crates" / crate / "proofs" / path / "Answers.antt"
        self.goals = f"Rattle.{crate}.proofs.{path.replace('/', '.')}"
        self.old = self.file.read_text() if self.file.is_file() else None
        names = set(SIGNED.findall(self.old or ""))
        open_ones = ((goal, given, *candidates(body)) for goal, given, body in definitions(made) if "first_of" in body and not is_answered(goal, names))
        self.open = [it for it in open_ones if not it[0].endswith("_spec")]

    def write_twins(self):
        """Writes the first candidate of each goal as its answer, and the others beside it under other names."""
        text = self.old or ""
        for n, (goal, given, terms, _) in enumerate(self.open):
            for m, term in enumerate(terms):
                name = f"twin{n}_{m}" if m else goal
                text += f"\n{'' if m else 'pub '}{name} : goal.{goal}\n{name} {given} = {term}\n-- @{n} {m}\n"
        text = with_imports(text, [term for _, _, terms, _ in self.open for term in terms], self.goals)
        self.places = {(int(found[1]), int(found[2])): line for line, found in enumerate(map(MARK.match, text.split("\n"))) if found}
        self.file.parent.mkdir(parents=True, exist_ok=True)
        self.file.write_text(text)

    def keep(self, refused):
        """Keeps of each goal the first candidate that stood, and tells what these were."""
        kept, told = [], collections.Counter()
        for n, (goal, given, terms, is_exit) in enumerate(self.open):
            good = next((m for m in range(len(terms)) if not refused & {self.places[n, m], self.places[n, m] - 1}), None)
            if good is None or not (is_exit or good):
                told["no answer by itself" if good is None else "search rules, as before"] += 1
                continue
            told["exit of a `?`" if is_exit else terms[good]] += 1
            kept.append((goal, given, terms[good]))
        if kept:
            text = (self.old or "") + "".join(f"\npub {goal} : goal.{goal}\n{goal} {given} = {term}\n" for goal, given, term in kept)
            self.file.write_text(with_imports(text, [term for _, _, term in kept], self.goals))
        elif self.old is None:
            self.file.unlink()
        else:
            self.file.write_text(self.old)
        return told


def check(crate, *flags):
    """The status of a check of the crate, and what it said."""
    ran = subprocess.run(["rt", "check", *flags], cwd=TOP / "crates" / crate, stdin=subprocess.DEVNULL, stdout=subprocess.PIPE, stderr=subprocess.STDOUT, text=True)
    return ran.returncode, ran.stdout


def functions_of(crate, made, wanted):
    """The functions that have goals without an answer, of the modules that Rattle made."""
    room = pathlib.Path(made) / f"Rattle-{crate}-proofs"
    for file in sorted(room.rglob("Proof.antt")):
        path = str(file.parent.relative_to(room))
        by_hand = TOP / "crates" / crate / "proofs" / path / "Proof.antt"
        if not by_hand.exists() and (not wanted or any(it in path for it in wanted)):
            function = Function(crate, path, file.read_text())
            if function.open:
                yield function


def main():
    if len(sys.argv) < 2 or sys.argv[1].startswith("-"):
        sys.exit(__doc__)
    crate, wanted, told = sys.argv[1], sys.argv[2:], collections.Counter()
    with tempfile.TemporaryDirectory() as made:
        status, said = check(crate, "--generated", made)
        if status:
            sys.exit(f"name_answers.py: {crate} isn't proved, or its modules can't be printed:\n{said[-600:]}")
        functions = list(functions_of(crate, made, wanted))
    print(f"{crate}: {sum(len(it.open) for it in functions)} goals without an answer, in {len(functions)} functions", flush=True)
    for function in functions:
        function.write_twins()
    refused = collections.defaultdict(set)
    for path, line in re.findall(r"(?:\./)?proofs/(\S+?)/Answers\.antt:(\d+):\d+: error", check(crate, "--allow-holes")[1]):
        refused[path].add(int(line))
    for function in functions:
        told += function.keep(refused[function.path])
    for what, many in told.most_common():
        print(f"  {many:4} {what}")


main()
