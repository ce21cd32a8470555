#!/usr/bin/env bash
# Tries `bin/ubq` in a fresh clone, by hand: answers of the build that is not proved yet, by files of all kinds and standard
# input; `--prove`, interrupted and begun again; runs with nothing changed, with a source touched or changed; a `load`; an `append`; a
# script and a query that change a table; a mistake in the program; a proof that fails. It takes as long as proving the program from nothing does and
# some 25 answers of a minute.
# With --warm what was proved here is taken along, but for the crate `ub_words`. With --answers the program is not proved:
# only the unproved answers are tried; with --proof only what follows them, as with --warm. The last line says whether all was as
# it should be; the status is 1 where it was not.
#
#   tests/bin_ubq.sh [--warm | --answers | --proof]
set -u

root=$(cd "$(dirname "$(readlink -f "${BASH_SOURCE[0]}")")/.." && pwd)
room=$(mktemp -d "${TMPDIR:-/tmp}/bin-ubq-XXXXXX") || exit 2
trap 'rm -rf "$room"' EXIT
git clone -q "$root" "$room/clone" || exit 2
cd "$room/clone" || exit 2

wrong=0
check() { # what holds, and a command that shows it
    local what=$1
    shift
    if "$@"; then
        echo "ok: $what"
    else
        echo "WRONG: $what"
        wrong=$((wrong + 1))
    fi
}
# Runs a command by the words after the name of what it is given, and keeps what it writes and how it ends.
ask() {
    local start=$SECONDS
    bin/ubq "$@" >"$room/out" 2>"$room/err"
    status=$?
    took=$((SECONDS - start))
}
ended() {
    [ "$status" -eq "$1" ]
}
wrote() {
    printf -- "$1" | cmp -s - "$room/out"
}
told() {
    grep -q "$1" "$room/err"
}
worked='x,y,m\n2,3,20\n3,0,5\n2,3,1\n-- rows 3, pages 1\n'
is_unproved() {
    told 'comes from a build that is not proved yet'
}
# The most seconds that one answer is waited for.
longest=600
# Waits until a file holds a text, or no longer than for an answer.
stay_for() {
    local second
    for ((second = 0; second < longest; second++)); do
        grep -qs "$1" "$2" && return
        sleep 1
    done
}
# Whether none of the processes of a session, whose number a file holds, is left.
is_over() {
    [ -z "$(ps -o pid= -s "$(cat "$1")")" ]
}

# ---- Answers of the build that is not proved yet

answers() {
    local here=$PWD
    ask try tests/data/s.csv tests/data/between.sql --dims 2
    check "the first answer has the worked lines ($took s)" wrote "$worked"
    check "its status is the program's" ended 0
    check "it says that it is not proved" is_unproved

    mkdir -p "$room/with blank"
    cp tests/data/s.csv "$room/with blank/a table.csv"
    cp tests/data/between.sql "$room/with blank/a script.sql"
    ask try "$room/with blank/a table.csv" "crates/../../with blank/a script.sql" --dims 2
    check "absolute paths, with .. and with blanks" wrote "$worked"
    cd "$room/with blank" || exit 2
    "$here/bin/ubq" try 'a table.csv' 'a script.sql' --dims=2 >"$room/out" 2>"$room/err"
    check "from another folder" wrote "$worked"
    cd "$here" || exit 2

    bin/ubq try tests/data/s.csv - --dims 2 <tests/data/between.sql >"$room/out" 2>"$room/err"
    check "a script from a file as standard input" wrote "$worked"
    { head -c 20 tests/data/between.sql; sleep 5; tail -c +21 tests/data/between.sql; } | bin/ubq try tests/data/s.csv - --dims 2 \
        >"$room/out" 2>"$room/err"
    check "a script from a pipe that is silent for 5 seconds" wrote "$worked"
    if command -v script >/dev/null; then
        # A terminal: what is typed comes back too, and each line ends with a carriage return. It stays until the answer is there.
        { sleep 2; cat tests/data/between.sql; sleep 1; printf '\004'; stay_for 'pages 1' "$room/typed"; } | timeout "$longest" \
            script -qec 'bin/ubq try tests/data/s.csv - --dims 2 2>/dev/null; kill -TERM 0' /dev/null >"$room/typed" 2>/dev/null
        check "a script that is typed at a terminal" \
            grep -q 'rows 3, pages 1' <(tr -d '\r' <"$room/typed")
    else
        echo "skipped: a script that is typed at a terminal (no command script)"
    fi
    printf 'one\ntwo\n' | while read -r line; do
        bin/ubq next 2,2 6,3 19 >"$room/next.$line" 2>/dev/null
    done
    check "a call in a loop that reads lines takes none of them" test -s "$room/next.two"
    check "and writes the worked lines" cmp -s "$room/next.two" <(printf 'next 36\nprev 15\n')

    printf 'x,y\n2,-3\n' >"$room/signed.csv"
    ask try --signed 2 "$room/signed.csv" tests/data/between.sql --dims 2
    check "a mask before the files" wrote 'x,y\n2,-3\n-- rows 1, pages 1\n'

    ask try no.csv tests/data/between.sql --dims 2
    check "a file that isn't there is told as the program tells it" wrote '! Device\n'
    check "with its status" ended 4
    ask run no.ub tests/data/between.sql
    check "and so is a table" wrote '! Device\n'
    check "with that status" ended 4
    ask describe tests/old/s.ub
    check "a table file is described" wrote 'table t\ndimension x\ndimension y\nmeasure m\nrows 5\nnext 6\nregions 3\npage-rows 2\ndirectory-pages 1\nformat 1\nload-with --dims 2 --signed 0 --page-rows 2 --name t\n'
    check "by the build that is not proved" is_unproved
    cp tests/data/s.csv "$room/none.ub"
    ask describe "$room/none.ub"
    check "one that is none is not" wrote '! BadSize\n'
    ask run "$room/none.ub" tests/data/between.sql
    check "a table file that is none is refused" ended 3
    check "and stands as it was" cmp -s tests/data/s.csv "$room/none.ub"
    scripts
    ask try tests/data/s.csv tests/data/between.sql
    check "a wrong command line has status 2" ended 2
    ask load --help
    check "help of load needs no proof" grep -q '^Usage: ubq load ' "$room/out"
    ask upgrade --help
    check "nor does help of upgrade" grep -q '^Usage: ubq upgrade ' "$room/out"
    ask append --help
    check "nor of append" grep -q '^Usage: ubq append ' "$room/out"
    ask query "$room/none.ub" --help 'DELETE FROM t'
    check "nor of query" grep -q '^Usage: ubq query ' "$room/out"
    ask
    check "no words at all have status 2" ended 2
    check "and are shown how the program is called" grep -q '^Usage: ubq <COMMAND>' "$room/out"

    awk 'BEGIN { print "x"; for (i = 0; i < 200000; i++) print i }' >"$room/long.csv"
    echo 'SELECT * FROM t;' >"$room/all.sql"
    ask try "$room/long.csv" "$room/all.sql" --dims 1
    check "an answer past 1 MiB is not given" test ! -s "$room/out"
    check "with a status of none of the program's" ended 125
    check "and says what it needs" told 'needs the proved program'
    head -c $((64 * 1024 * 1024 + 1)) /dev/zero | bin/ubq try tests/data/s.csv - --dims 2 >"$room/out" 2>"$room/err"
    status=$?
    check "so does standard input past 64 MiB" told 'more than 64 MiB'
    check "with that status" ended 125

    setsid bash -c 'echo $$ >"$0"; exec timeout -s INT 10 bin/ubq --version' "$room/session" >"$room/out" 2>"$room/err"
    sleep 3
    check "an interrupt leaves nothing running" is_over "$room/session"
    check "and nothing is written" test ! -s "$room/out"

    # A sum that passes the greatest number of 8 bits, where the program begins.
    sed -i 's/^fn main(rt: HostRuntime) -> ExitCode {/&\n    let mut sum = 250u8;\n    for it in 0..10u8 {\n        sum += it;\n    }\n    if sum == 5 {\n        return ExitCode::from(9);\n    }/' \
        crates/ubq/src/main.rt
    check "the program was made wrong" test -n "$(git status --porcelain crates/ubq)"
    ask next 2,2 6,3 19
    check "an overflow gives no answer" test ! -s "$room/out"
    check "ends with a status of none of the program's" ended 125
    check "and is told" told 'fault'
    sed 's/^/    /' "$room/err"
    git checkout -q crates/ubq
}

# A script that may change a table is for the proved program alone. Here the proof fails at once, so that it is only seen whether
# one is begun.
scripts() {
    printf 'SELECT COUNT(*) FROM t;\n' >"$room/asks.sql"
    printf 'SELECT COUNT(*) FROM t; -- what an InSeRt would change\n' >"$room/comment.sql"
    printf 'DELETE FROM t WHERE x = 2;\nINSERT INTO t VALUES (4, 4, -6);\nSELECT COUNT(*) FROM t;\n' >"$room/changes.sql"
    printf '#!/bin/sh\nexit 1\n' >bin/prove
    ask run "$room/none.ub" "$room/changes.sql"
    check "a script that changes a table needs the proof" told 'changed by the proved program alone'
    check "without one there is no answer" ended 125
    check "nothing is written" test ! -s "$room/out"
    check "and the table file stands as it was" cmp -s tests/data/s.csv "$room/none.ub"
    rm -f "$(sed -n 's/.*prover said: //p' "$room/err")"
    ask run "$room/none.ub" "$room/comment.sql"
    check "the word in a comment, in any case, needs it too" told 'changed by the proved program alone'
    rm -f "$(sed -n 's/.*prover said: //p' "$room/err")"
    ask run "$room/none.ub" - <"$room/changes.sql"
    check "so does one from standard input" told 'changed by the proved program alone'
    rm -f "$(sed -n 's/.*prover said: //p' "$room/err")"
    ask run "$room/none.ub" <(cat "$room/changes.sql")
    check "and one from a pipe" told 'changed by the proved program alone'
    rm -f "$(sed -n 's/.*prover said: //p' "$room/err")"
    ask query "$room/none.ub" 'SELECT * FROM t; deLETE FROM t WHERE x = 2'
    check "and a query that changes a table" told 'changed by the proved program alone'
    check "without one there is no answer" ended 125
    rm -f "$(sed -n 's/.*prover said: //p' "$room/err")"
    ask query "$room/none.ub" -- '-- what an InSeRt would change'
    check "also where the word stands in a comment" told 'changed by the proved program alone'
    rm -f "$(sed -n 's/.*prover said: //p' "$room/err")"
    ask append "$room/none.ub" tests/data/s.csv
    check "an append needs it" told 'changed by the proved program alone'
    check "without one there is no answer" ended 125
    check "and the table file stands as it was" cmp -s tests/data/s.csv "$room/none.ub"
    rm -f "$(sed -n 's/.*prover said: //p' "$room/err")"
    ask upgrade tests/old/s.ub "$room/new.ub"
    check "an upgrade needs it" told 'made by the proved program alone'
    check "without one there is no answer" ended 125
    check "and nothing is made" test ! -e "$room/new.ub"
    rm -f "$(sed -n 's/.*prover said: //p' "$room/err")"
    git checkout -q bin/prove

    ask run "$room/none.ub" "$room/asks.sql"
    check "a script that only asks is answered unproved" is_unproved
    check "with the program's status" ended 3
    printf 'SELECT COUNT(*)\nFROM t;\n' | bin/ubq run "$room/none.ub" - >"$room/out" 2>"$room/err"
    status=$?
    check "also from standard input" is_unproved
    check "with that status" ended 3
    ask run "$room/none.ub" "$room"
    check "a folder for a script is told as the program tells it" wrote '! Device\n'
    ask query "$room/none.ub" 'SELECT COUNT(*) FROM t'
    check "a query that only asks is answered unproved" is_unproved
    check "with the program's status" ended 3
    check "its fault isn't among the answers" test ! -s "$room/out"
    check "and is told apart" told '^! BadSize$'
    ask try tests/data/s.csv "$room/changes.sql" --dims 2
    check "a try changes no file, so it is answered unproved" wrote '-- deleted 2\n-- inserted 6\nCOUNT(*)\n4\n-- rows 1, pages 1\n'
    check "and says so" is_unproved
}

# ---- The proof

take_along() {
    local out crate
    for out in "$root"/crates/*/out; do
        crate=$(basename "$(dirname "$out")")
        case $crate in
        ub_words | ubq) ;;
        *) [ -d "crates/$crate" ] && cp -a "$out" "crates/$crate" ;;
        esac
    done
}

proof() {
    # Some seconds, and then an interrupt to all that was started.
    setsid bash -c 'echo $$ >"$0"; exec timeout -s INT 45 bin/ubq --prove' "$room/session" >"$room/out" 2>"$room/err"
    check "an interrupt is told" told 'stopped; what was proved is kept'
    sleep 2
    check "an interrupt leaves nothing running" is_over "$room/session"

    # A load proves first. Its table is the proved program's.
    ask load tests/data/s.csv "$room/s.ub" --dims 2
    check "a load ends with status 0" ended 0
    echo "    in $took s:"
    sed 's/^/    /' "$room/err"
    check "it says that it proves first" told 'made by the proved program alone'
    check "it tells what it proved" told 'proved: ub_words'
    check "it writes its line" wrote '-- rows 5, regions 1\n'

    ask try tests/data/s.csv tests/data/between.sql --dims 2
    check "then the proved program answers" test ! -s "$room/err"
    check "with the worked lines" wrote "$worked"
    ask run "$room/s.ub" tests/data/between.sql
    check "also of the table" wrote "$worked"
    ask query "$room/s.ub" 'SELECT * FROM t WHERE x BETWEEN 2 AND 3'
    check "and to a query" wrote 'x,y,m\n2,3,20\n3,0,5\n2,3,1\n'
    check "with the line that tells of it apart" told '^-- rows 3, pages 1$'
    cp "$room/s.ub" "$room/changed.ub"
    ask append "$room/changed.ub" tests/data/s.csv
    check "which takes rows of a file" wrote '-- appended 5, rows 10\n'
    ask query "$room/changed.ub" 'SELECT COUNT(*) FROM t'
    check "and has them" wrote 'COUNT(*)\n10\n'
    cp "$room/s.ub" "$room/changed.ub"
    printf 'INSERT INTO t VALUES (3, 3, -6);' >"$room/insert.sql"
    ask run "$room/changed.ub" "$room/insert.sql"
    check "and changes it" wrote '-- inserted 6\n'
    ask run "$room/changed.ub" tests/data/between.sql
    check "which the next run sees" wrote 'x,y,m\n2,3,20\n3,0,5\n2,3,1\n3,3,-6\n-- rows 4, pages 1\n'
    ask upgrade tests/old/gaps.ub "$room/gaps.ub"
    check "a table of an older version is made anew" wrote '-- rows 16, regions 6\n'
    ask --prove
    check "and there is nothing more to prove" test "$(cat "$room/err")" = 'ubq: proved: crates/ubq/out/ubq'
    find crates -name '*.rt' -exec touch {} +
    ask try tests/data/s.csv tests/data/between.sql --dims 2
    check "files that are newer and say the same prove nothing" test ! -s "$room/err"
    check "and the lines are the same" wrote "$worked"

    # It looks older than the program: what is moved or unpacked into its place can.
    echo '// Nothing more.' >>crates/ubq/src/main.rt
    touch -d 2001-01-01 crates/ubq/src/main.rt
    ask next 2,2 6,3 19
    check "a source that has changed is answered unproved" is_unproved
    echo 'SELECT * FROM t WHERE x BETWEEN 2 AND 3;' | bin/ubq run "$room/s.ub" - >"$room/out" 2>"$room/err"
    check "so is a script that only asks, from standard input" wrote "$worked"
    check "with the line that says so" is_unproved
    echo 'DELETE FROM t WHERE y = 3;' | bin/ubq run "$room/changed.ub" - >"$room/out" 2>"$room/err"
    status=$?
    check "one that changes a table proves first" told 'changed by the proved program alone'
    check "with its script kept for the proved program" wrote '-- deleted 3\n'
    check "and ends with its status" ended 0
    check "the crate is proved again alone" test -z "$(grep ' of .* proved: ' "$room/err")"
    ask run "$room/changed.ub" tests/data/between.sql
    check "and the next run sees it" wrote 'x,y,m\n3,0,5\n-- rows 1, pages 1\n'
    echo '// And nothing more.' >>crates/ubq/src/main.rt
    ask --prove
    check "a source that has changed is proved again by its name ($took s)" ended 0
    check "alone" test -z "$(grep ' of .* proved: ' "$room/err")"

    sed -i 's/ensures { result.now ≡ self.now.schema }/ensures { ⊥ }/' crates/ub_tree/src/tree.rt
    check "a contract was made wrong" test -n "$(git status --porcelain crates/ub_tree)"
    ask --prove
    check "a proof that fails ends with status 125" ended 125
    check "it names the crate" told 'not proved: .*ub_tree'
    log=$(sed -n 's/.*prover said: //p' "$room/err")
    check "it says where the log is" test -s "$log"
    rm -f "$log"
    ask load tests/data/s.csv "$room/other.ub" --dims 2
    check "a load does nothing then" test ! -e "$room/other.ub"
    rm -f "$(sed -n 's/.*prover said: //p' "$room/err")"
}

case ${1:-} in
--answers) answers ;;
--proof)
    take_along
    proof
    ;;
--warm)
    answers
    take_along
    proof
    ;;
*)
    answers
    proof
    ;;
esac

if [ $wrong -eq 0 ]; then echo 'all as it should be'; else echo "$wrong wrong"; fi
[ $wrong -eq 0 ]
