#!/usr/bin/env bash
# Makes each allocation of one run of the program fail in turn, on a script with a statement of every kind: rows, an order, the first
# rows in the order of a dimension, aggregates, groups, no row, and a refused one. Each run must either write the texts of the first
# statements, then `! Memory` and nothing else, with status 5, or the whole text with status 1 (an allocation that the program can do
# without). It stops when ten runs after one another end well, which met no failing allocation any more.
# It builds the program anew for each run, some 15 seconds: run it by hand or by night. usage: tests/allocations.sh [FIRST [LAST]]
set -uo pipefail
top=$(cd "$(dirname "$0")/.." && pwd)
work=$(mktemp -d)
trap 'rm -rf "$work"' EXIT
cd "$top/crates/ubq"
first=${1:-1}
last=${2:-100000}
statements=(
    'SELECT * FROM t WHERE x BETWEEN 2 AND 3;'
    'SELECT x, m FROM t WHERE x >= 2 AND m > 4 ORDER BY m DESC;'
    'SELECT x, y FROM t ORDER BY x LIMIT 1;'
    'SELECT COUNT(*), SUM(m) FROM t WHERE x > 9;'
    'SELECT x, SUM(m) FROM t GROUP BY x;'
    'SELECT m FROM t WHERE x > 4294967295;'
    'SELECT z FROM t;'
)
texts=(
    $'x,y,m\n2,3,20\n3,0,5\n2,3,1\n-- rows 3, pages 3\n'
    $'x,m\n2,20\n3,5\n-- rows 2, pages 3\n'
    $'x,y\n0,2\n-- rows 1, pages 2\n'
    $'COUNT(*),SUM(m)\n0,NULL\n-- rows 1, pages 1\n'
    $'x,SUM(m)\n0,7\n1,10\n2,21\n3,5\n-- rows 4, pages 3\n'
    $'m\n-- rows 0, pages 0\n'
    $'! UnknownColumn at '
)
printf '%s\n' "${statements[@]}" > "$work/kinds.sql"
# Where the refused name stands in the script.
before=$(printf '%s\n' "${statements[@]:0:6}" | wc -c)
texts[6]+=$((before + 7))$'\n'

# Whether a text is that of the first statements, and `! Memory`.
breaks_off() {
    local front='' text
    [ "$1" = '! Memory' ] && return 0
    for text in "${texts[@]}"; do
        front+=$text
        [ "$1" = "$front! Memory" ] && return 0
    done
    return 1
}

whole=$(printf '%s' "${texts[@]}")
bad=0
well=0
for ((n = first; n <= last && well < 10; n++)); do
    text=$(rt try --fail-alloc "$n" --data s.csv="$top/tests/data/s.csv" --data kinds.sql="$work/kinds.sql" \
        -- try s.csv kinds.sql --dims 2 --page-rows 2 2> /dev/null)
    status=$?
    text=$(grep -v '^rt: ' <<< "$text")
    if [ "$status" -eq 1 ] && [ "$text" = "$whole" ]; then
        well=$((well + 1))
    elif [ "$status" -eq 5 ] && breaks_off "$text"; then
        well=0
    else
        echo "allocation $n: status $status, text: $text"
        bad=$((bad + 1))
        well=0
    fi
done
echo "allocations.sh: allocations $first to $((n - 1)) failed in turn, $bad answers wrong"
exit $((bad > 0))
