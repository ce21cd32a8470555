#!/usr/bin/env bash
# Makes each allocation of ub_store's test of a page that memory is refused for fail in turn: the test must then either pass
# (the page's number stays in the trace, and the same call succeeds the second time) or end with Memory, where a call before
# was refused it. The other tests of that crate end as they may; the longest are broken off.
# usage: tests/store_allocations.sh [FIRST [LAST]]     (it builds the tests anew for each number, some 60 seconds)
set -uo pipefail
top=$(cd "$(dirname "$0")/.." && pwd)
cd "$top/crates/acceptance_page"
first=${1:-1}
last=${2:-40}
test=store::notes_a_page_that_memory_is_refused_for
bad=0
for ((n = first; n <= last; n++)); do
    text=$(rt try --test --seconds 3 --fail-alloc "$n" 2>&1)
    grep -q "^test $test \.\.\. ok" <<< "$text" && continue
    grep -A1 "^test $test .*FAILED" <<< "$text" | grep -q 'error: Memory' && continue
    echo "allocation $n: $(grep -A1 "^test $test" <<< "$text")"
    bad=$((bad + 1))
done
echo "store_allocations.sh: allocations $first to $((n - 1)) failed in turn, $bad of them with another end"
exit $((bad > 0))
