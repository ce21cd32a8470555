#!/usr/bin/env bash
# Statements of a million parts, through the program: each must be refused at the first part that is one too many, in at
# most 3 seconds for each 10 MB of script, also with a stack of 256 KB. Run it by hand.
# usage: tests/statements.sh [PARTS [PROGRAM]]     (a million parts where no number is named)
set -uo pipefail
top=$(cd "$(dirname "$0")/.." && pwd)
[ $# -gt 1 ] || "$top/bin/ubq" --prove || exit 2
ubq=$(readlink -f "${2:-$top/crates/ubq/out/ubq}")
parts=${1:-1000000}
folder=$(mktemp -d)
trap 'rm -rf "$folder"' EXIT
bad=0

# script HEAD PART JOINT TAIL: the statement of so many parts
script() {
    python3 -c 'import sys
head, part, joint, tail, parts = sys.argv[1:]
sys.stdout.write(head + joint.join([part] * int(parts)) + tail + ";\n")' "$1" "$2" "$3" "$4" "$parts"
}

# refused NAME OFFSET HEAD PART JOINT [TAIL [FAULT]]: the statement is refused at this offset, as TooMany or so, with every stack
refused() {
    local fault=${7:-TooMany} text status stack start milliseconds limit
    script "$3" "$4" "$5" "${6:-}" > "$folder/script.sql"
    limit=$((3000 * $(stat -c %s "$folder/script.sql") / 10000000))
    if [ "$limit" -lt 3000 ]; then limit=3000; fi
    for stack in 8192 256; do
        start=$(date +%s%N)
        text=$(ulimit -s "$stack" && exec "$ubq" try "$top/tests/data/s.csv" "$folder/script.sql" --dims 2 2>&1)
        status=$?
        milliseconds=$((($(date +%s%N) - start) / 1000000))
        echo "$1, stack $stack KB: $text, status $status, $milliseconds ms"
        if [ "$text" != "! $fault at $2" ] || [ "$status" -ne 1 ] || [ "$milliseconds" -gt "$limit" ]; then
            echo "  wanted: ! $fault at $2, status 1, at most $limit ms"
            bad=$((bad + 1))
        fi
    done
}

where="SELECT x FROM t WHERE "
refused "OR" 598 "$where" "x = 1" " OR "
refused "AND" 662 "$where" "x = 1" " AND "
refused "NOT and OR" 858 "$where" "NOT x = 1" " OR "
refused "NOT and AND" 922 "$where" "NOT x = 1" " AND "
refused "BETWEEN and OR" 1366 "$where" "x BETWEEN 1 AND 2" " OR "
refused "BETWEEN and AND" 1430 "$where" "x BETWEEN 1 AND 2" " AND "
refused "items" 31 "SELECT " "x" ", " " FROM t"
refused "order keys" 49 "SELECT x FROM t ORDER BY " "x" ", "
refused "OR of a DELETE" 596 "DELETE FROM t WHERE " "x = 1" " OR "
refused "values" 31 "INSERT INTO t VALUES (" "1" ", " ")" ValueCount
echo "statements.sh: $bad wrong"
exit $((bad > 0))
