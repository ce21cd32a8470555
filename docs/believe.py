#!/usr/bin/env python3
"""Writes docs/BELIEVE.md: the short clause of `run_program`, and each definition that it reaches, in reading order.

    docs/believe.py            writes the page
    docs/believe.py --check    says whether the page is what it would write (status 1 where it isn't)
    docs/believe.py --all      prints what else is promised: the whole contract, and each other definition that it reaches

It begins at the words of the clause and follows the words of each definition found, by the `use` lines of its file, through
the `specs/` of all crates. Words of std and of other libraries are not followed, nor types that code declares. An argument
with the name of a definition that its file has or uses counts as that one: the page may have one too many, none too few."""

import re
import sys
from collections import Counter, namedtuple

from specs import TOP, Definition, crate_lines, path_of, program_crates, spec_files, write_or_check

PAGE = TOP / "docs" / "BELIEVE.md"
PROMISE = ("ub_shell", "program", "run_program")
SHORT = "short"
HEART = ("ub_query", "Meaning", "IsMeaning")
USE = re.compile(r"(?:ghost |(?:unfoldable )?pub )?use (Rattle\.[^\s;{]+?)\.?(?:\{([^}]*)\}| as ([^\s;]+))?;?$")

# What a word stands for that is no definition of the repository: a type or a constant of its code, or a word of a library.
Other = namedtuple("Other", "kind crate file name")

# A section of the page: its title, its sentence, and its files in order, each as a pair of its place (crate and name) and
# its definitions; these are pairs too, of the definition and what its words stand for.
Section = namedtuple("Section", "title sentence files")

# The first section: what the clause itself says.
PLAIN = (
    "What is promised of a run",
    "How a run ends that the words ask for. What its words mean stands below.",
    "ub_shell.Short",
)

# The next one, and its files in order.
FIRST = (
    "What a query means",
    "The heart, in full: which rows of cells a query has on a table, and in which order. All else says which queries are\n"
    "accepted, how such rows are written, which pages are read for them, and what the commands do.",
    "ub_table.Table ub_query.Shape ub_query.Truth ub_query.Groups ub_query.Cells ub_query.Order ub_query.Posed"
    " ub_query.Meaning",
)

# The other sections, and whose definitions they have: those of whole crates, but for single files that another one names.
SECTIONS = [
    (
        "Tables, and which CSV texts are one",
        "What a name, a schema and a table are; the rows of a CSV text; why a text is no table, the first reason first.",
        "ub_table ub_load",
    ),
    (
        "Tokens and statements",
        "Which tokens the text of a script has, and which runs of them are its statements.",
        "ub_lexer",
    ),
    (
        "Grammar",
        "Which tokens are a statement, and its syntax; where others stop being the beginning of one; how many parts a\n"
        "statement may have.",
        "ub_syntax",
    ),
    (
        "Refusals, and what an accepted statement asks",
        "Why a statement is refused, the first reason first; and what any other one asks.",
        "ub_parser ub_query",
    ),
    (
        "Texts",
        "The bytes of an answer, of an EXPLAIN, of a change and of a refusal; what a whole script writes, however it ends, and\n"
        "what it leaves: each statement rests on what the one before it left.",
        "ub_script ub_query.Cells ub_query.Meaning ub_plan.Explained",
    ),
    (
        "Which pages are read",
        "Addresses and boxes; regions; the boxes of a condition; the plan of a query, and which regions it visits.",
        "ub_zaddr ub_bigmin ub_boxes ub_planning ub_filter ub_plan ub_tetris ub_exec ub_answer ub_table.Keys ub_table.Region ub_region.Spans",
    ),
    (
        "What a statement changes",
        "Where a table stands: its rows, their regions and the next number; what an INSERT and a DELETE make of that, and of any\n"
        "tree, also one that isn't sound.",
        "ub_exec.Stand ub_exec.Deleting ub_script.Changes ub_tree.Change ub_tree.Removal ub_tree.Effects ub_tree.Holding"
        " ub_tree.Others ub_index_change.Changing ub_index_change.Preparing ub_index_change.Lowering",
    ),
    (
        "Pages of a file",
        "How regions come of rows; the bytes of pages; what a store of pages is; which pages are a table, and which tree\n"
        "they or a CSV text give; which faults come.",
        "ub_bytes ub_region ub_page ub_store ub_file ub_index ub_index_change ub_check ub_laying ub_upgrade ub_writing ub_tree ub_table.Block"
        " ub_load.Loading ub_load.LoadedTree",
    ),
    (
        "Commands",
        "What the words of a command line ask for; what files hold; what is written of each fault; how a command ends.",
        "ub_words ub_files ub_next ub_table_file ub_shell",
    ),
]

HEAD = """# What a reader must believe

The checker proves that the program keeps its promise. Whether the promise says what it should is
for a reader to judge. It has two clauses. The short one, below, says what `run TABLE SCRIPT` does
where TABLE holds a sound table and the files give back what was written to them: each statement has
its reply on the table as the one before left it, and nothing else is written. It is made of the
{definitions} definitions on this page, {lines} lines without their comments. The section 'What a query
means' is what SQL means here: who reads no more has read which rows an answer has.

The other clause has what else is promised: of damaged tables and files that fail, of crashes, and of
the other commands. It is made of {others} definitions more, {other_lines} lines; `docs/believe.py --all`
prints them, and their table of contents stands at the end.

This page is made by `docs/believe.py`, from the clause and from the crates' `specs/`: it begins at
the words of the clause and follows the words of each definition. What only proofs or the contracts
between crates speak of isn't here (DEFINITIONS.md has that too, crate by crate, without texts).
Within a section what is used mostly stands before what uses it. A definition that has no comment
often goes with the one before it. Types and constants of the code are named with their files, and
words of other libraries at the end; those of Rattle's std (lists, numbers, `codes` of a text,
`decimal` digits) are left out. What else is trusted, the checker first, stands in PROMISES.md.

| Section | Definitions | Lines |
|---|---|---|
{table}

## The promise

All that the program does but for what touches the process: `crates/ubq/src/main.rt` hands it the
words, the files, standard output, and standard error, to which a query writes its notes, and ends
with its status. `F` is any source of files that keeps the contract of the trait `Files`
(`crates/ub_files/src/files.rt`) and lends stores that keep that of `PageStore`
(`crates/ub_store/src/store.rt`); `F.facts` is what contracts see of it. `W` and `N` are any writers
of std, and `W.contents` the bytes in one, where that is told. For the system's files `main` hands in
`HostFiles`, and `facts_of_host` in `crates/ub_host_files/specs/Host.antt` says what is seen of those:
not what a path holds, and that they give back what was written to them is a premise.

```
{promise}
```

## All definitions, each in a line
"""
ALL = """# What else is promised

Beside the short clause (docs/BELIEVE.md) the program's promise has the one below. It is made of the
{definitions} definitions here, {lines} lines without their comments, and of those of the short one, which
aren't here again. Printed by `docs/believe.py --all`.

| Section | Definitions | Lines |
|---|---|---|
{table}

## The promise

```
{promise}
```
"""
ELSE = """## What else is promised

The other clause of `run_program` says how each command ends, however that is; what is written of
damaged tables and files that fail; and what a crash leaves at each moment. Beside the definitions
above it is made of these, which `docs/believe.py --all` prints.

| Section | File | Definitions | Lines |
|---|---|---|---|"""
LIBRARIES = """These stand in the definitions above and are defined in libraries of the kit: how a CSV text is
read into records, how words are taken by a command line, and how a number stands in bytes."""


def uses_of(lines):
    """What each word stands for that `use` lines bring: a path with dots."""
    uses = {}
    for path, names, alias in (found.groups() for found in map(USE.match, map(str.strip, lines)) if found):
        if names is None:
            uses[alias or path.split(".")[-1]] = path
        else:
            pairs = [name.strip().partition(" as ") for name in names.split(",")]
            uses.update((other or word, f"{path}.{word}") for word, _, other in pairs)
    return uses


def own_words(file):
    """The words that a file defines: its definitions, and the constructors of its data types."""
    own = {}
    for definition in file.definitions:
        own[definition.name] = definition
        if re.match("(pub )?data ", definition.lines[0]):
            own.update((line.split()[0], definition) for line in definition.lines[1:])
    return own


class Words:
    """What the words of each file of definitions stand for."""

    def __init__(self):
        files = [file for crate, _ in crate_lines() for file in spec_files(crate)]
        self.crates = {crate for crate, _ in crate_lines()}
        self.heads = {(file.crate, file.name): file.head for file in files}
        self.own = {(file.crate, file.name): own_words(file) for file in files}
        self.uses = {(file.crate, file.name): uses_of(file.lines) for file in files}

    def find(self, place, word):
        """What a word stands for in a file; nothing where it is none of the file's own and none that it uses."""
        first, _, rest = word.partition(".")
        if first in self.own[place]:
            return self.own[place][first]
        return self.follow(self.uses[place].get(first), rest)

    def follow(self, path, rest=""):
        """What a path of a `use` line stands for; of a whole file, what the word stands for that is asked of it."""
        if path is None:
            return None
        crate, names = path.split(".")[1], path.split(".")[3:]
        file, parent = (crate, ".".join(names)), (crate, ".".join(names[:-1]))
        if names[0] == "declared":
            return declared("code" if crate in self.crates else "library", crate, names[1:])
        if file in self.own:
            return self.find(file, rest)
        return self.find(parent, names[-1]) if parent in self.own else Other("library", *parent, names[-1])


def declared(kind, crate, names):
    """A type or a constant that code declares, by the names of its modules, its own, and what is asked of it."""
    own = next(n for n, name in enumerate(names) if name[0].isupper())
    return Other(kind, crate, "/".join(names[:own]), names[-1] if names[own] == "TheConstants" else names[own])


def words_in(lines):
    """The words of some lines, without those of texts in quotes, and without the names of the fields that a value of a record is given."""
    text = re.sub('"[^"]*"', "", "\n".join(lines))
    return re.findall(r"[^\s(){}\[\];,]+", re.sub(r"([{;]\s*)\w+ = ", r"\1", text))


def fields_of(definition):
    """The fields of a record: in it these words stand for nothing else."""
    if "record" not in definition.lines[0].split(" : ")[0].split():
        return set()
    return {found[1] for found in (re.match(r" +(?:pub )?(\S+) :", line) for line in definition.lines[1:]) if found}


def references(words, definition):
    """What the words of a definition stand for."""
    place, fields = (definition.crate, definition.file), fields_of(definition)
    found = [words.find(place, word) for word in words_in(definition.lines) if word not in fields]
    return [it for it in found if it]


def reached(words, starts):
    """The definitions that some lead to, by crate, file and name, each with what its words stand for."""
    found, waiting = {}, list(starts)
    while waiting:
        definition = waiting.pop()
        key = (definition.crate, definition.file, definition.name)
        if key not in found:
            found[key] = (definition, references(words, definition))
            waiting += [it for it in found[key][1] if isinstance(it, Definition)]
    return found


def promise():
    """The promise's lines, from its comment to its body, and all lines of its file."""
    crate, module, name = PROMISE
    lines = (TOP / "crates" / crate / "src" / f"{module}.rt").read_text().splitlines()
    start = next(n for n, line in enumerate(lines) if line.startswith(f"pub fn {name}<"))
    end = lines.index("{", start)
    while lines[start - 1].startswith("///"):
        start -= 1
    return lines[start:end], lines


def parted():
    """The promise's lines before its clauses, and those of each clause by its name."""
    before, clauses = [], {}
    for line in promise()[0]:
        found = re.match(r" +ensures (\w+) {", line)
        if found:
            clauses[found[1]] = []
        (clauses[found[1]] if found else list(clauses.values())[-1] if clauses else before).append(line)
    return before, clauses


def promised(words, clauses):
    """The definitions that some lines of the promise name."""
    uses = uses_of(promise()[1])
    named = [words.follow(uses.get(word.split(".")[0])) for word in words_in(clauses)]
    return [it for it in named if isinstance(it, Definition)]


def used_files(words, place):
    """The other files of its crate that a file uses."""
    paths = [path.split(".") for path in words.uses[place].values()]
    names = {".".join(path[3 : 3 + length]) for path in paths if path[1] == place[0] for length in (1, 2)}
    return {(place[0], name) for name in names if name != place[1]}


def listed(place):
    """Where a file stands in the Lib.antt of its crate."""
    crate, file = place
    text = (TOP / "crates" / crate / "specs" / "Lib.antt").read_text()
    return re.findall(r"^pub mod (\S+)", text, re.M).index(file.split(".")[0]), file


def ordered(words, places):
    """Files in reading order: crate by crate, lowest first; in a crate as Lib.antt lists them, but after what they use."""
    done = []
    for crate in program_crates():
        waiting = sorted((place for place in words.own if place[0] == crate), key=listed)
        while waiting:
            done.append(next(place for place in waiting if not used_files(words, place) & set(waiting)))
            waiting.remove(done[-1])
    return [place for place in done if place in places]


def home_of(place):
    """The title of the section that has the definitions of a file."""
    for wanted in (".".join(place), place[0]):
        for title, _, homes in SECTIONS:
            if wanted in homes.split():
                return title
    sys.exit(f"docs/believe.py has no section for {path_of(*place)}: name its crate in SECTIONS")


def in_files(words, found, places):
    """The definitions found in each of some files, in the order in which they stand there."""
    return [(place, [found[(*place, name)] for name in words.own[place] if (*place, name) in found]) for place in places]


def reach():
    """All words, what the short clause leads to, and what else the others do."""
    words = Words()
    clauses = parted()[1]
    short = reached(words, promised(words, clauses[SHORT]))
    others = reached(words, promised(words, [line for lines in clauses.values() for line in lines]))
    return words, short, {key: told for key, told in others.items() if key not in short}


def sections(words, found):
    """Some definitions in sections, those of the heart first, without the sections that have none."""
    crate, file, name = HEART
    heart = {key: told for key, told in reached(words, [words.own[crate, file][name]]).items() if key in found}
    plain = {key: told for key, told in found.items() if ".".join(key[:2]) in PLAIN[2].split()}
    rest = {key: told for key, told in found.items() if key not in heart and key not in plain}
    order = ordered(words, {key[:2] for key in rest})
    made = [Section(title, sentence, in_files(words, part, [tuple(home.split(".")) for home in homes.split()]))
            for (title, sentence, homes), part in ((PLAIN, plain), (FIRST, heart)) if part]
    for title, sentence, _ in SECTIONS:
        made.append(Section(title, sentence, in_files(words, rest, [place for place in order if home_of(place) == title])))
    return [part for part in made if part.files]


def others_in(section, kind):
    """What the definitions of a section speak of that is no definition, of one kind."""
    found = [it for _, told in section.files for _, references in told for it in references]
    return {it for it in found if isinstance(it, Other) and it.kind == kind}


def by_file(others, form):
    """A line for each file that some words are of."""
    files = {}
    for it in sorted(others):
        files.setdefault(form.format(it), []).append(f"`{it.name}`")
    return [f"- {file}: {', '.join(names)}" for file, names in files.items()]


def entry(definition):
    comment = f": {definition.comment}" if definition.comment else ""
    return [f"**`{definition.name}`**{comment}", "", "```antt", *definition.lines, "```", ""]


def section_lines(words, section, known):
    """The lines of a section; what is known of the code is what the sections above speak of."""
    lines = [f"## {section.title}", "", section.sentence, ""]
    new = by_file(others_in(section, "code") - known, "`crates/{0.crate}/src/{0.file}.rt`")
    if new:
        lines += ["Types and constants of the code that come up here first:", "", *new, ""]
    for place, told in section.files:
        lines += [f"### `{path_of(*place)}`", ""]
        lines += [words.heads[place], ""] if words.heads[place] else []
        lines += [line for definition, _ in told for line in entry(definition)]
    return lines


def sizes(parts):
    """How many definitions some sections have, and how many lines those."""
    lengths = [len(definition.lines) for part in parts for _, told in part.files for definition, _ in told]
    return len(lengths), f"{sum(lengths):,}"


def table(parts):
    lines = []
    for part in parts:
        anchor = re.sub("[^a-z ]", "", part.title.lower()).replace(" ", "-")
        lines.append("| [{}](#{}) | {} | {} |".format(part.title, anchor, *sizes([part])))
    return [*lines, "| all | {} | {} |".format(*sizes(parts))]


def box(parts):
    """A line for each definition: its name, and what its comment says."""
    for part in parts:
        yield from ["", f"**{part.title}**", ""]
        for _, told in part.files:
            yield from (f"- `{it.name}`" + (f": {it.comment}" if it.comment else "") for it, _ in told)
    yield ""


def contents(parts):
    """A line for each file of some sections, with how many definitions are in it."""
    for part in parts:
        for number, (place, told) in enumerate(part.files):
            yield "| {} | `{}` | {} | {} |".format("" if number else part.title, path_of(*place), *sizes([Section("", "", [(place, told)])]))
    yield "| all | | {} | {} |".format(*sizes(parts))


def body(words, parts):
    lines, known, libraries = [], set(), set()
    for part in parts:
        lines += section_lines(words, part, known)
        known |= others_in(part, "code")
        libraries |= {it for it in others_in(part, "library") if it.crate != "std"}
    return [*lines, "## Words of other libraries", "", LIBRARIES, "", *by_file(libraries, "`{0.crate}`, `{0.file}`")]


def page(words, short, others):
    """The page of the short clause."""
    (definitions, lines), (more, other_lines) = sizes(short), sizes(others)
    before, clauses = parted()
    head = HEAD.format(definitions=definitions, lines=lines, others=more, other_lines=other_lines, table="\n".join(table(short)),
                       promise="\n".join([*before, *clauses[SHORT]]))
    return "\n".join([head.rstrip("\n"), *box(short), *body(words, short), "", ELSE, *contents(others)]) + "\n"


def whole_page(words, others):
    """The page of what else is promised."""
    definitions, lines = sizes(others)
    head = ALL.format(definitions=definitions, lines=lines, table="\n".join(table(others)), promise="\n".join(promise()[0]))
    return "\n".join([head, *body(words, others)])


def faults(parts):
    """What is wrong with the sections: that a file in one has no definitions, or that a definition stands twice."""
    keys = Counter((place, definition.name) for part in parts for place, told in part.files for definition, _ in told)
    yield from (f"docs/believe.py: {key} stands {count} times" for key, count in keys.items() if count > 1)
    for part in parts:
        if any(not told for _, told in part.files):
            yield f"docs/believe.py: a file in the section '{part.title}' has no definitions"


def main():
    words, short, others = reach()
    short, others = sections(words, short), sections(words, others)
    if sys.argv[1:] == ["--all"]:
        print(whole_page(words, others))
        return 0
    status = write_or_check(PAGE, page(words, short, others), "believe.py", sys.argv[1:])
    for fault in faults([*short, *others]):
        print(fault)
        status = 1
    return status


if __name__ == "__main__":
    sys.exit(main())
