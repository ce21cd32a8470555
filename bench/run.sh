#!/usr/bin/env bash
# Times, from outside, what can't be seen through the program `ubq`: `next_in_box`, in nanoseconds a call for each number of dimensions,
# beside its body by bits, and without the making of the boxes and addresses; addresses of points and back; event values; and a page
# read and filtered.
# usage: bench/run.sh [CALLS]     (default 1000000)
set -euo pipefail
calls=${1:-1000000}
top=$(cd "$(dirname "$0")/.." && pwd)
cd "$top/crates/bench"
rt run -- 1 > /dev/null 2>&1 || { echo "bench/run.sh: crate bench does not build: see rt check there" >&2; exit 1; }
answer=/dev/null
repeats=7
# shellcheck source=bench/lib/times.sh
. "$top/bench/lib/times.sh"
# Nanoseconds for the calls in D dimensions by one way.
jumps() {
    least $repeats out/bench "$calls" "$1" "$2"
}
for dims in 1 2 3 4; do
    making=$(jumps "$dims" making)
    words=$(jumps "$dims" words)
    bits=$(jumps "$dims" bits)
    echo "next_in_box, $dims dimensions: $(((words - making) / calls)) ns a call, by bits $(((bits - making) / calls))," \
        "the making apart, $((making / calls)) ($calls calls)"
done

# Addresses of points, and points of addresses.
for dims in 1 2 3 4; do
    echo "interleave, $dims dimensions: $(($(jumps "$dims" interleave) * 10 / calls)) tenths of a ns a call," \
        "spread $(($(jumps "$dims" spread) * 10 / calls)) ($calls calls)"
done

# The event value of a box in spans like the regions of 200,000 rows.
for dims in 1 2 3 4; do
    echo "least_value, $dims dimensions: $(($(jumps "$dims" events) / calls)) ns a call ($calls calls)"
done

# A page of 64 rows with one measure read into a region that is held, and filtered by a box.
pages=200000
for dims in 1 2 3 4; do
    echo "a region read and filtered, $dims dimensions: $(($(least $repeats out/bench pages "$dims" "$pages") / pages)) ns a page ($pages pages)"
done
