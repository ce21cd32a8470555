#!/usr/bin/env python3
"""Holds completions/ubq.bash and completions/_ubq (zsh) against what the help of the program and of each of its commands says: which commands
there are, which options each has, which words each takes, in which order, and which of these name files.

bash is asked: its completion function is called with COMP_WORDS, as bash calls it, and with some whole lines besides. Each value that is
offered for an option is given to the program, which must take it. zsh's file is read; where there is a zsh, it must also find the file
well formed, and expand it to the same options and words, else that is said.

Run by hand: tests/completions.py [PROGRAM]. It tells how many commands, options and words were compared, and how many lines were tried.
"""
import os
import re
import shutil
import subprocess
import sys

from lib.program import TOP, counts, judge, program

BASH = os.path.join(TOP, "completions", "ubq.bash")
ZSH = os.path.join(TOP, "completions", "_ubq")
# The words of commands that name files.
FILES = {"DATA", "TABLE", "SCRIPT", "OLD", "NEW"}
OPTION = re.compile(r"--?[A-Za-z][a-z-]*")
VALUED = ["--dims", "--signed", "--page-rows", "--name"]
# What is asked of bash: it prints for each line what is offered, each on a line of its own, and a line FILES where the names of files are.
DRIVER = """
source "$1"
shift
by_itself=no
compopt() { [ "$*" != '+o default' ] || by_itself=no; }
[ "$(complete -p ubq)" = 'complete -o default -F _ubq ubq' ] || exit 1
while read -r -d ''; do
    eval "COMP_WORDS=($REPLY)"
    COMP_CWORD=$((${#COMP_WORDS[@]} - 1)) by_itself=yes
    _ubq
    for word in "${COMPREPLY[@]}"; do printf "%s\\n" "$word"; done
    [ "$by_itself" = no ] || [ ${#COMPREPLY[@]} -gt 0 ] || echo FILES
    printf '\\0'
done
"""
# What is asked of zsh: the file is run with functions in place of zsh's own, which print what they are called with.
ZSH_DRIVER = """
emulate zsh
_arguments() { print -rl -- "$@"; state=$wanted; return 0; }
_describe() { print -rl -- ${(P)@[-1]}; }
words=($2 '') wanted=$3 CURRENT=2
source $1
"""
# Lines by hand: what stands, the last word being the one to complete, and what is offered for it.
LINES = [
    ("ubq l", ["load"]),
    ("ubq d", ["describe"]),
    ("ubq -", ["-h", "--help", "-V", "--version"]),
    ("ubq help up", ["upgrade"]),
    ("ubq help load ''", []),
    ("ubq run ''", ["FILES"]),
    ("ubq run trips.ub examples/tr", ["FILES"]),
    ("ubq run trips.ub script.sql ''", ["-h", "--help"]),
    ("ubq run -- trips.ub script.sql ''", []),
    ("ubq run -- -", ["FILES"]),
    ("ubq query ''", ["FILES"]),
    ("ubq query trips.ub ''", ["-h", "--help"]),
    ("ubq query trips.ub 'SELECT * FROM t' ''", ["-h", "--help"]),
    ("ubq query -- trips.ub ''", []),
    ("ubq append trips.ub ''", ["FILES"]),
    ("ubq append trips.ub - ''", ["-h", "--help"]),
    ("ubq a", ["append"]),
    ("ubq load --dims ''", ["1", "2", "3", "4"]),
    ("ubq load --dims =", ["1", "2", "3", "4"]),
    ("ubq load --dims = 3", ["3"]),
    ("ubq load --name ''", []),
    ("ubq load --signed 1", ["1", "10", "11", "12", "13", "14", "15"]),
    ("ubq load --dims 2 ''", ["FILES"]),
    ("ubq load --dims = 2 trips.csv ''", ["FILES"]),
    ("ubq load trips.csv --dims 2 trips.ub ''", ["-h", "--help", "--signed", "--page-rows", "--name"]),
    ("ubq load trips.csv trips.ub --dims 2 --n", ["--name"]),
    ("ubq try - --dims 2 --d", []),
    ("ubq describe 'my table.ub' ''", ["-h", "--help"]),
    ("ubq next 2,2 ''", []),
    ("ubq unknown ''", []),
]


def same(what, found, wanted):
    judge(what, found == wanted, f"{found}, and the help has {wanted}")


def answer(*words):
    return subprocess.run(words, stdin=subprocess.DEVNULL, stdout=subprocess.PIPE, stderr=subprocess.STDOUT, text=True, check=False)


def section(text, head):
    """The lines of a help's section, which ends before an empty line."""
    found = re.search(rf"(?ms)^{head}:\n(.*?)(\n\n|\Z)", text)
    return found.group(1).rstrip("\n").split("\n") if found else []


def helps(tried):
    """The commands, and of each and of the program alone (''): its options, and its words in order."""
    top = answer(tried, "--help").stdout
    commands = [line.split()[0] for line in section(top, "Commands")]
    told = {}
    for command in [""] + commands:
        text = top if command == "" else answer(tried, *(["help", "help"] if command == "help" else [command, "--help"])).stdout
        options = [option for line in section(text, "Options") for option in OPTION.findall(re.split(r"  +|<", line.strip())[0])]
        told[command] = options, [re.match(r" +[<\[]([A-Z]+)", line).group(1) for line in section(text, "Arguments")]
    return commands, told


# ---- bash


def offered(lines):
    """What bash offers for each of these lines."""
    given = "".join(line + "\0" for line in lines)
    ended = subprocess.run(["bash", "--norc", "-c", DRIVER, "bash", BASH], input=given, stdout=subprocess.PIPE, text=True, check=False)
    parts = ended.stdout.split("\0")
    if ended.returncode != 0 or len(parts) != len(lines) + 1:
        sys.exit(f"bash could not run {BASH}")
    return [part.split("\n")[:-1] for part in parts[:-1]]


def hold_bash(commands, told):
    same("bash, the commands", sorted(offered(["ubq ''"])[0]), sorted(commands))
    same("bash, the commands of help", sorted(offered(["ubq help ''"])[0]), sorted(commands))
    for command, (options, words) in told.items():
        same(f"bash, options of '{command}'", sorted(offered([f"ubq {command} -"])[0]), sorted(options))
        if command in ("", "help"):
            continue
        for at, word in enumerate(words):
            line = " ".join(["ubq", command] + ["1"] * at + ["''"])
            same(f"bash, files for {word} of {command}", offered([line])[0] == ["FILES"], word in FILES)
        line = " ".join(["ubq", command] + ["1"] * len(words) + ["''"])
        same(f"bash, files after the last word of {command}", offered([line])[0] == ["FILES"], False)


def hold_values(tried, told):
    """The program takes each value that is offered: what it then tells is that a file isn't there. Of the numbers it takes no other one near."""
    taken = 0
    for option in VALUED:
        judge(f"{option} is an option of load and of try", all(option in told[command][0] for command in ("load", "try")), told)
        values = offered([f"ubq load {option} ''"])[0]
        numbers = [int(value) for value in values]
        beyond = [min(numbers) - 1, max(numbers) + 1] if numbers else []
        for value in numbers + beyond:
            words = ["try", "/missing", "/missing", f"{option}={value}"] + ([] if option == "--dims" else ["--dims=4"])
            status = answer(tried, *words).returncode
            judge(f"{option} {value}", (status == 4) == (value not in beyond), f"status {status}")
        taken += len(numbers)
    return taken


# ---- zsh


def read_zsh():
    """The commands that zsh's file names, and of each and of the program alone: its options, and its words in order, with whether each is a file."""
    with open(ZSH, encoding="utf-8") as file:
        text = file.read()
    lists = {name: re.findall(r"'(.*)'", body) for name, body in re.findall(r"(?ms)^    (\w+)=\(\n(.*?)^    \)", text)}
    calls = {"": re.search(r"(?ms)_arguments -C (.*?) && ret=0", text).group(1)}
    for names, call in re.findall(r"(?ms)^        (\w+(?: \| \w+)*)\)\n +_arguments (.*?) && ret=0", text):
        calls.update((name, call) for name in names.split(" | "))
    found = {}
    for command, call in calls.items():
        specs = [spec for name in re.findall(r"\$(\w+)", re.sub(r"'.*?'", "", call)) for spec in lists[name]]
        found[command] = specs_of(specs + re.findall(r"'(.*?)'", call))
    return [entry.split(":")[0] for entry in lists["commands"]], found


def specs_of(specs):
    """The options and the words of the specs of `_arguments`."""
    options, words = [], []
    for spec in specs:
        option = re.match(r"(?:\(.*?\))?(--?[A-Za-z][a-z-]*)=?\[", spec)
        word = re.match(r"\d:([A-Z]+):(.*)", spec)
        if option:
            options.append(option.group(1))
        elif word:
            words.append((word.group(1), word.group(2) == "_files"))
    return options, words


def hold_zsh(how, commands, told, zsh_commands, found):
    same(f"{how}, the commands", sorted(zsh_commands), sorted(commands))
    same(f"{how}, the commands that have words of their own", sorted(found), sorted(told))
    for command, (options, words) in told.items():
        zsh_options, zsh_words = found.get(command, ([], []))
        same(f"{how}, options of '{command}'", sorted(zsh_options), sorted(options))
        same(f"{how}, words of '{command}'", zsh_words, [(word, word in FILES) for word in words])


def ask_zsh(zsh, commands, told):
    judge("zsh finds its file well formed", answer(zsh, "-n", ZSH).returncode == 0)

    def lines(command, state):
        return answer(zsh, "-f", "-c", ZSH_DRIVER, "zsh", ZSH, command or "''", state).stdout.split("\n")

    top = lines("", "none")
    found = {"": specs_of(top)}
    listed = [line.split(":")[0] for line in lines("", "command")[len(top) - 1:-1]]
    for command in commands:
        found[command] = specs_of(lines(command, "word")[len(top) - 1:])
    hold_zsh("zsh itself", commands, told, listed, found)


def main():
    tried = program()
    commands, told = helps(tried)
    hold_bash(commands, told)
    values = hold_values(tried, told)
    for (line, wanted), found in zip(LINES, offered([line for line, _ in LINES])):
        judge(f"bash, {line}", found == wanted, f"{found}, and {wanted} is wanted")
    hold_zsh("zsh's file", commands, told, *read_zsh())
    zsh = shutil.which("zsh")
    if zsh:
        ask_zsh(zsh, commands, told)
    else:
        print("skipped: there is no zsh here, so its file was only read")
    options = sum(len(options) for options, _ in told.values())
    words = sum(len(words) for _, words in told.values())
    print(f"completions: {len(commands)} commands, {options} options and {words} words of them, {values} values, {len(LINES)} lines by hand: "
          f"{counts['right']} right, {counts['wrong']} wrong")
    return counts["wrong"] > 0


if __name__ == "__main__":
    sys.exit(main())
