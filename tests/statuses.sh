#!/usr/bin/env bash
# Each status that the program ends with, 0 to 5, through the program itself, and what it writes then; a device that is
# full, and a pipe that nobody reads. Run it by hand. The last line counts; the status is 1 where something was wrong.
# usage: tests/statuses.sh [PROGRAM]
set -uo pipefail
top=$(cd "$(dirname "$0")/.." && pwd)
[ $# -gt 0 ] || "$top/bin/ubq" --prove || exit 2
ubq=$(readlink -f "${1:-$top/crates/ubq/out/ubq}")
room=$(mktemp -d) || exit 2
trap 'rm -rf "$room"' EXIT
right=0 wrong=0

tell() { # whether it is right, and what was tried
    if [ "$1" = yes ]; then
        right=$((right + 1))
        echo "ok: $2"
    else
        wrong=$((wrong + 1))
        echo "WRONG: $2"
    fi
}

# Whether standard error is as it should be after this status: one line that begins so where a file failed, and else nothing.
errs() {
    case $1 in
    4) [ "$(wc -l <"$room/err")" -le 1 ] && ! grep -qvE "^ubq: (can't |nothing was kept in |kept in )" "$room/err" ;;
    *) [ ! -s "$room/err" ] ;;
    esac
}

# ends STATUS TEXT WORDS..: with these words the program ends so, and has written this text, which may hold \n
ends() {
    local wanted=$1 text=$2 status is=no
    shift 2
    "$ubq" "$@" >"$room/out" 2>"$room/err"
    status=$?
    if [ "$status" -eq "$wanted" ] && printf "$text" | cmp -s - "$room/out" && errs "$status"; then is=yes; fi
    tell "$is" "status $wanted: ubq $*"
}

# begins STATUS LINE WORDS..: the same, where this is the first line, and more follow
begins() {
    local wanted=$1 line=$2 status is=no
    shift 2
    "$ubq" "$@" >"$room/out" 2>"$room/err"
    status=$?
    if [ "$status" -eq "$wanted" ] && [ "$(head -n 1 "$room/out")" = "$line" ] && errs "$status"; then is=yes; fi
    tell "$is" "status $wanted: ubq $*"
}

printf 'x,y,m\n1,1,10\n2,3,20\n3,0,5\n0,2,7\n2,3,1\n' >"$room/table.csv"
printf 'x,y,m\n1,2,3\n4,a,5\n' >"$room/letter.csv"
printf 'SELECT * FROM t WHERE x BETWEEN 2 AND 3;\n' >"$room/script.sql"
printf 'SELECT m FROM u;\n' >"$room/other.sql"
truncate -s 4G "$room/large.csv"

ends 0 'x,y,m\n2,3,20\n3,0,5\n2,3,1\n-- rows 3, pages 3\n' \
    try "$room/table.csv" "$room/script.sql" --dims 2 --page-rows 2
ends 0 'next 36\nprev 15\n' next 2,2 6,3 19
ends 0 'ubq 0.1.0 (table format 3)\n' --version
begins 0 'Answer SQL queries over a table of whole numbers, kept as a UB-tree in one file' --help
ends 1 '! UnknownTable at 14\n' try "$room/table.csv" "$room/other.sql" --dims 2
ends 2 '! BadPoint\n' next 2,2 6 19
ends 2 '! EmptyBox\n' next 7,2 6,3 19
ends 2 '! BadPoint\n' next -1,2 6,3 19
begins 2 "error: 'ubq' requires a subcommand but one was not provided"
begins 2 "error: invalid value '5' for '--dims <D>': 5 is not in 1..=4" try a b --dims 5
ends 2 '! BadMask\n' load "$room/none.csv" "$room/none.ub" --dims 2 --signed 4
begins 2 "error: invalid value '16' for '--signed <MASK>': 16 is not in 0..=15" try a b --dims 4 --signed 16
ends 2 'error: the words of the command line are not all text in UTF-8\n' next $'\xff' 6,3 19
ends 3 '! BadNumber row 2 column 2\n' try "$room/letter.csv" "$room/script.sql" --dims 2
ends 4 '! Device\n' try "$room/none.csv" "$room/script.sql" --dims 2

# A table that is larger than all the memory that there is.
(
    ulimit -v 1000000
    exec "$ubq" try "$room/large.csv" "$room/script.sql" --dims 2 >"$room/out" 2>&1
)
status=$? is=no
if [ "$status" -eq 5 ] && [ "$(cat "$room/out")" = '! Memory' ]; then is=yes; fi
tell "$is" "status 5: a table of 4 GB in 1 GB of memory"

# No byte can be written: what is said of the words and the data is lost, and the status says so.
for words in "next 2,2 6,3 19" "next 2,2 6 19" "--help" "try a b --dims 5" "try none none --dims 2" \
    "try $room/table.csv $room/script.sql --dims 2"; do
    # shellcheck disable=SC2086
    "$ubq" $words >/dev/full 2>"$room/err"
    status=$? is=no
    if [ "$status" -eq 4 ] && errs 4; then is=yes; fi
    tell "$is" "status 4: ubq $words, to a full device"
done

# Nobody reads: the reader has gone a second before the first byte is written.
{
    sleep 1
    "$ubq" next 2,2 6,3 19
    echo $? >"$room/status"
} | :
is=no
if [ "$(cat "$room/status")" = 4 ]; then is=yes; fi
tell "$is" "status 4: ubq next 2,2 6,3 19, to a pipe that nobody reads"

echo "statuses: $right right, $wrong wrong"
[ "$wrong" -eq 0 ]
