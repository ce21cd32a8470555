#!/usr/bin/env bash
# Tries the wrong bodies of tests/plants/CRATE/*.edit, which the prover should refuse and for which the gate has no time.
#
#     tests/plants.sh [CRATE..]      the crates named, or all that have plants
#
# In a temporary folder it makes a copy of the repository, with what was proved of the crates below the one in turn, puts that
# crate's plants in the place of its must-fail edits, and runs `rt must-fail` on it. A plant whose meaning a test alone catches
# says so in its first line (`# a test catches it: ..`): it is left out here and listed. The last line counts; the status is 1
# where a plant was not refused, and 2 where none could be tried.
set -u

root=$(cd "$(dirname "$(readlink -f "${BASH_SOURCE[0]}")")/.." && pwd)
plants=$root/tests/plants
if [ $# -eq 0 ]; then
    mapfile -t crates < <(cd "$plants" && ls)
else
    crates=("$@")
fi
for crate in "${crates[@]}"; do
    if [ ! -d "$plants/$crate" ]; then
        echo "plants.sh: there are no plants for $crate" >&2
        exit 2
    fi
done

# The repository's crates that a crate stands on, by crates.txt, each before those above it.
below() {
    local name
    for name in $(sed -n "s/^$1\( [^:]*\)\?: *//p" "$root/crates.txt"); do
        if [ -d "$root/crates/$name" ]; then
            below "$name"
            echo "$name"
        fi
    done
}

copy=$(mktemp -d "${TMPDIR:-/tmp}/plants-XXXXXX") || exit 2
trap 'rm -rf "$copy"' EXIT
cp "$root/crates.txt" "$root/HANDLES" "$copy" || exit 2
for folder in "$root"/crates/*; do
    name=$(basename "$folder")
    mkdir -p "$copy/crates/$name" || exit 2
    find "$folder" -mindepth 1 -maxdepth 1 ! -name out ! -name must-fail -exec cp -r {} "$copy/crates/$name" \; || exit 2
done
cd "$copy" || exit 2

refused=0 others=0
for crate in "${crates[@]}"; do
    for name in $(below "$crate" | sort -u); do
        if [ -d "$root/crates/$name/out" ] && [ ! -d "crates/$name/out" ]; then
            cp -r "$root/crates/$name/out" "crates/$name" || exit 2
        fi
    done
    edits=crates/$crate/must-fail
    mkdir "$edits" || exit 2
    for plant in "$plants/$crate"/*.edit; do
        if head -n 1 "$plant" | grep -q '^# a test catches it'; then
            echo "$crate/$(basename "$plant" .edit): left to a test"
        else
            cp "$plant" "$edits" || exit 2
        fi
    done
    there=$(find "$edits" -name '*.edit' | wc -l)
    [ "$there" -gt 0 ] || continue
    rt must-fail "$crate" > said 2>&1
    if ! grep "must-fail $crate/" said; then
        echo "plants.sh: no plant of $crate could be tried; the last that was said:" >&2
        tail -n 5 said >&2
        exit 2
    fi
    right=$(grep -c "must-fail $crate/.*: refused, as it must be" said)
    refused=$((refused + right))
    others=$((others + there - right))
done
echo "plants: $refused refused, $others not"
[ "$others" -eq 0 ]
