#!/usr/bin/env bash
# Times queries on a made table of three dimensions and two measures: for each kind the time of one query, its rows and its pages, the
# pages of the table, and the floor (the rows of the answer that a page can hold at most). A query's time is that of a script which has it many
# times, less that of an empty script, each the least of some runs.
# Last it times a script of 100 statements, each of a range of one dimension, on a table of two dimensions that is half as large.
# usage: bench/queries.sh [ROWS [PROGRAM]]     (default 200000)
set -euo pipefail
rows=${1:-200000}
top=$(cd "$(dirname "$0")/.." && pwd)
work=$(mktemp -d)
trap 'rm -rf "$work"' EXIT
answer=$work/answer
# shellcheck source=bench/lib/times.sh
. "$top/bench/lib/times.sh"
program=$(program_of "${2:-}")
bash "$top/bench/table.sh" "$rows" > "$work/data.csv"

# The nanoseconds that a script takes.
script_time() { # SCRIPT
    least 3 "$program" try "$work/data.csv" "$1" --dims 3
}

: > "$work/empty.sql"
empty=$(script_time "$work/empty.sql")
echo "loading $rows rows: $((empty / 1000000)) ms"
echo "SELECT COUNT(*) FROM t;" > "$work/all.sql"
"$program" try "$work/data.csv" "$work/all.sql" --dims 3 > "$answer"
pages=$(sed -n 's/.*pages //p' "$answer")

query() { # a name, how many times, and the statement
    local time found read
    for ((i = 0; i < $2; i++)); do echo "$3"; done > "$work/script.sql"
    time=$(($(script_time "$work/script.sql") - empty))
    found=$(sed -n 's/^-- rows \([0-9]*\),.*/\1/p' "$answer" | tail -n 1)
    read=$(sed -n 's/.*pages //p' "$answer" | tail -n 1)
    echo "$1: $(((time > 0 ? time : 0) / $2 / 1000)) us, rows $found, pages $read of $pages, floor $(((found + 63) / 64))"
}

query "a point's neighbourhood" 1000 "SELECT * FROM t WHERE x BETWEEN 500000 AND 505000 AND y BETWEEN 500000 AND 505000 AND z BETWEEN 500000 AND 505000;"
query "a small box" 200 "SELECT * FROM t WHERE x BETWEEN 500000 AND 550000 AND y BETWEEN 500000 AND 550000 AND z BETWEEN 500000 AND 550000;"
query "a box of a hundredth" 20 "SELECT * FROM t WHERE x BETWEEN 200000 AND 425000 AND y BETWEEN 200000 AND 425000 AND z BETWEEN 200000 AND 425000;"
query "a box of a tenth" 5 "SELECT * FROM t WHERE x BETWEEN 200000 AND 686000 AND y BETWEEN 200000 AND 686000 AND z BETWEEN 200000 AND 686000;"
query "one dimension alone, a hundredth" 20 "SELECT * FROM t WHERE y BETWEEN 500000 AND 510000;"
query "COUNT(*) over all" 5 "SELECT COUNT(*) FROM t;"
query "SUM, MIN, MAX over all" 5 "SELECT SUM(amount), MIN(amount), MAX(amount) FROM t;"
query "GROUP BY of 100 groups" 5 "SELECT kind, COUNT(*), SUM(amount) FROM t GROUP BY kind;"
query "ORDER BY with LIMIT 10" 5 "SELECT * FROM t ORDER BY amount DESC LIMIT 10;"
query "ORDER BY a dimension in a box of a tenth, LIMIT 10" 5 "SELECT * FROM t WHERE x BETWEEN 200000 AND 686000 AND y BETWEEN 200000 AND 686000 AND z BETWEEN 200000 AND 686000 ORDER BY x LIMIT 10;"
query "a box that no row can meet" 200 "SELECT * FROM t WHERE x BETWEEN 2000000 AND 3000000;"

# The rows of boxes in the order of each dimension, and beside it the same rows by a scan, in the order of a measure: the first rows
# of a sweep come from few pages. The boxes have about a hundredth, a tenth and all of the space.
echo "in the order of a dimension, beside a scan in the order of a measure:"
for box in "one hundredth|x BETWEEN 200000 AND 425000 AND y BETWEEN 200000 AND 425000 AND z BETWEEN 200000 AND 425000" \
    "one tenth|x BETWEEN 200000 AND 686000 AND y BETWEEN 200000 AND 686000 AND z BETWEEN 200000 AND 686000" \
    "all|x >= 0"; do
    for limit in " LIMIT 1" " LIMIT 10" " LIMIT 1000" ""; do
        for key in x y z amount; do
            query "${box%%|*}, ORDER BY $key$limit" 3 "SELECT * FROM t WHERE ${box#*|} ORDER BY $key$limit;"
        done
    done
done

# A whole run of `try`: the rows go into a tree, and each statement reads all of its regions.
awk -v n=$((rows / 2)) 'BEGIN {
    print "x,y,m"
    a = 1
    for (i = 0; i < n; i++) {
        a = (a * 16807) % 2147483647; x = a
        a = (a * 16807) % 2147483647; print x "," a "," i
    }
}' > "$work/plane.csv"
for ((i = 0; i < 100; i++)); do
    echo "SELECT * FROM t WHERE x BETWEEN $((i * 20000000)) AND $((i * 20000000 + 10000000));"
done > "$work/ranges.sql"
time=$(least 1 "$program" try "$work/plane.csv" "$work/ranges.sql" --dims 2)
echo "try, $((rows / 2)) rows of two dimensions, 100 statements: $((time / 1000000)) ms, $(wc -l < "$answer") lines written"
