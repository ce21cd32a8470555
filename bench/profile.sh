#!/usr/bin/env bash
# Where the time goes, the kernel's part included: of 100 times COUNT(*) over all on a table file, of loading it, and of `try` with an empty
# script. For each the functions that take most of the samples, and the shares of memmove (with memcpy) and of memset.
# usage: bench/profile.sh [ROWS [PROGRAM]]     (default 200000, the table of bench/table.sh; needs the program perf)
set -euo pipefail
rows=${1:-200000}
top=$(cd "$(dirname "$0")/.." && pwd)
work=$(mktemp -d)
trap 'rm -rf "$work"' EXIT
command -v perf > /dev/null || { echo "profile.sh: no perf on the path" >&2; exit 2; }
shown=12

answer=$work/answer
# shellcheck source=bench/lib/times.sh
. "$top/bench/lib/times.sh"
program=$(program_of "${2:-}")
bash "$top/bench/table.sh" "$rows" > "$work/data.csv"
: > "$work/empty.sql"
for ((i = 0; i < 100; i++)); do echo "SELECT COUNT(*) FROM t;"; done > "$work/count.sql"

profile() { # NAME COMMAND..: where its time goes
    echo "$1:"
    shift
    perf record -q -e cpu-clock -F 2000 -o "$work/samples" -- "$@" > "$answer"
    perf report -i "$work/samples" --stdio --no-children --sort symbol 2> "$work/warnings" | sed 's/#.*//' |
        awk -v shown="$shown" '
            $1 ~ /%$/ {
                share = $1; sub(/%/, "", share)
                if ($0 ~ /memmove|memcpy/) moves += share
                if ($0 ~ /memset/) sets += share
                if (++lines <= shown) print "  " $0
            }
            END { printf "  memmove %.1f %%, memset %.1f %%\n", moves, sets }'
}

profile "load" "$program" load "$work/data.csv" "$work/table.ub" --dims 3 --name t
profile "try with an empty script" "$program" try "$work/data.csv" "$work/empty.sql" --dims 3 --name t
profile "100 times COUNT(*) over all" "$program" run "$work/table.ub" "$work/count.sql"
