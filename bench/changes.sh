#!/usr/bin/env bash
# The same changes of a table in ubq and in SQLite, side by side in one run, as a table in Markdown: single INSERTs in one script, into a
# table of no rows and into a large one, a DELETE of a box of a twentieth of a large table, and one of all its rows. SQLite has the rows
# under one covering index, and makes each change in one transaction, with synchronous off; its DELETE of all rows has a WHERE, since
# without one it drops its pages whole. A time is that of a process which makes the change on a new copy of the file, and closes it, less
# that of one which reads an empty script, each the least of some runs. It also tells what the closing of a changed table costs, most of
# which is its two syncs, and the memory of each process, where there is a program that tells it.
# usage: bench/changes.sh [ROWS [INSERTS [PROGRAM]]]     (default 200000 and 100000; needs the program sqlite3)
set -euo pipefail
rows=${1:-200000}
inserts=${2:-100000}
top=$(cd "$(dirname "$0")/.." && pwd)
work=$(mktemp -d)
trap 'rm -rf "$work"' EXIT
answer=$work/answer
runs=3
command -v sqlite3 > /dev/null || { echo "changes.sh: no sqlite3 on the path" >&2; exit 2; }
# shellcheck source=bench/lib/times.sh
. "$top/bench/lib/times.sh"
program=$(program_of "${3:-}")

# ---- the tables, and the rows that are put in: those that follow in the same sequence
bash "$top/bench/table.sh" $((rows + inserts)) > "$work/all.csv"
head -n $((rows + 1)) "$work/all.csv" > "$work/large.csv"
head -n 1 "$work/all.csv" > "$work/none.csv"
for table in none large; do
    "$program" load "$work/$table.csv" "$work/$table.ub" --dims 3 > "$answer"
    sqlite3 "$work/$table.db" "CREATE TABLE t(x INTEGER, y INTEGER, z INTEGER, kind INTEGER, amount INTEGER);" \
        ".mode csv" ".import --skip 1 $work/$table.csv t" "CREATE INDEX all_of ON t(x, y, z, kind, amount);"
done

# ---- the scripts of ubq, and those of SQLite around the same statements
tail -n "$inserts" "$work/all.csv" | sed 's/.*/INSERT INTO t VALUES (&);/' > "$work/inserts.sql"
head -n 1 "$work/inserts.sql" > "$work/one.sql"
echo "DELETE FROM t WHERE x BETWEEN 300000 AND 686292 AND y BETWEEN 300000 AND 686292 AND z BETWEEN 300000 AND 686292;" > "$work/box.sql"
echo "DELETE FROM t WHERE x >= 0;" > "$work/every.sql"
: > "$work/empty.sql"
for script in inserts one box every empty; do
    { echo "PRAGMA synchronous = OFF; PRAGMA cache_size = -262144; BEGIN;" && cat "$work/$script.sql" && echo "COMMIT;"; } \
        > "$work/$script.sqlite"
done

# ---- times, in microseconds
least_over_copies() { # SOURCE COPY COMMAND..: the least time of the command over new copies of the source
    local source=$1 copy=$2 took best=0 run
    shift 2
    for ((run = 0; run < runs; run++)); do
        rm -f "$copy"*
        cp "$source" "$copy"
        sync -f "$copy"
        took=$(least 1 "$@")
        if [ "$best" -eq 0 ] || [ "$took" -lt "$best" ]; then best=$took; fi
    done
    echo $((best / 1000))
}
ubq_time() { # TABLE SCRIPT
    least_over_copies "$work/$1.ub" "$work/copy.ub" "$program" run "$work/copy.ub" "$work/$2.sql"
}
sqlite_time() { # TABLE SCRIPT
    least_over_copies "$work/$1.db" "$work/copy.db" sqlite3 "$work/copy.db" ".read $work/$2.sqlite"
}
memory() { # COMMAND..: the most memory that it had, in MB, or nothing
    [ -x /usr/bin/time ] || return 0
    /usr/bin/time -f %M -o "$work/memory" "$@" > "$answer"
    awk '{ printf ", %.1f MB", $1 / 1024 }' "$work/memory"
}
ubq_memory() { cp "$work/$1.ub" "$work/copy.ub" && memory "$program" run "$work/copy.ub" "$work/$2.sql"; }
sqlite_memory() { rm -f "$work"/copy.db*; cp "$work/$1.db" "$work/copy.db" && memory sqlite3 "$work/copy.db" ".read $work/$2.sqlite"; }
cell() { # MICROSECONDS MEMORY
    awk -v us="$1" -v memory="$2" 'BEGIN { if (us < 0) us = 0; printf "%.4g ms%s", us / 1000, memory }'
}
compare() { # NAME TABLE SCRIPT: a row of the table
    local mine theirs
    mine=$(($(ubq_time "$2" "$3") - $(ubq_time "$2" empty)))
    theirs=$(($(sqlite_time "$2" "$3") - $(sqlite_time "$2" empty)))
    echo "| $1 | $(cell "$mine" "$(ubq_memory "$2" "$3")") | $(cell "$theirs" "$(sqlite_memory "$2" "$3")") |" \
        "$(awk -v a="$mine" -v b="$theirs" 'BEGIN { if (b > 0) printf "%.2f", a / b; else printf "-" }') |"
}
told() { # TABLE SCRIPT: the last line that ubq tells of it
    cp "$work/$1.ub" "$work/copy.ub"
    "$program" run "$work/copy.ub" "$work/$2.sql" | tail -n 1
}
echo "$rows rows, $inserts INSERTs; ubq tells of the box '$(told large box)', of all rows '$(told large every)'," \
    "and last of the INSERTs '$(told large inserts)'"
echo
echo "| Change | ubq | SQLite, covering index | times SQLite's |"
echo "|---|---|---|---|"
compare "$inserts INSERTs into a table of no rows" none inserts
compare "$inserts INSERTs into one of $rows" large inserts
compare "DELETE of a box of a twentieth" large box
compare "DELETE of all rows" large every
compare "one INSERT" large one
echo
echo "closing a table of $rows rows that one INSERT changed, with its syncs:" \
    "$(cell $(($(ubq_time large one) - $(ubq_time large empty))) "")"
