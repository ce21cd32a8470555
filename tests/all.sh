#!/usr/bin/env bash
# Runs the tests by hand that ask a proved program, one after the other, and tells of each its last line and how long it took. What
# a test writes before that is kept in a file whose name is told where it ended badly. The last line says how many ended well.
#
#   tests/all.sh [PROGRAM [NAME..]]      the program is proved and built first where none is named; with names, those tests alone
set -u

root=$(cd "$(dirname "$(readlink -f "${BASH_SOURCE[0]}")")/.." && pwd)
[ $# -gt 0 ] || "$root/bin/ubq" --prove || exit 2
ubq=$(readlink -f "${1:-$root/crates/ubq/out/ubq}")
shift || true
said=$(mktemp -d "${TMPDIR:-/tmp}/ubq-tests-XXXXXX") || exit 2
# The help has the name by which the program is run.
mkdir "$said/bin" && cp "$ubq" "$said/bin/ubq" || exit 2
ubq=$said/bin/ubq
well=0 badly=0

# Each test with its words, the quick ones first.
tests() {
    cat <<END
program.sh $ubq
statuses.sh $ubq
tutorial.py $ubq
terminal.py $ubq
hints.py $ubq
completions.py $ubq
damaged_index.py $ubq
limits.py $ubq
loads.py 400 1 $ubq
full.py $ubq
statements.sh 1000000 $ubq
sweeps.py 500 1 $ubq
signed.py 500 1 $ubq
changes.py 500 1 $ubq
upgrade.py 500 1 $ubq
words.py 30 1 $ubq
each_allocation.py $ubq
fuzz_files.py 2000 1 $ubq
crash.py 2000 $ubq
END
}

while read -r name words; do
    if [ $# -gt 0 ] && ! printf '%s\n' "$@" | grep -qxF "$name"; then
        continue
    fi
    begun=$SECONDS
    # shellcheck disable=SC2086
    "$root/tests/$name" $words </dev/null >"$said/$name" 2>&1
    status=$?
    if [ $status -eq 0 ]; then
        well=$((well + 1)) note=
    else
        badly=$((badly + 1)) note=" (status $status; $said/$name)"
    fi
    echo "$name, $((SECONDS - begun)) s: $(tail -n 1 "$said/$name")$note"
done < <(tests)
echo "all: $well ended well, $badly badly"
[ $badly -eq 0 ] && rm -rf "$said"
[ $badly -eq 0 ]
