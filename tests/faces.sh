#!/usr/bin/env bash
# Which crates look behind the face of another one, and how many names two crates or more define.
#
#     tests/faces.sh [--names]
#
# A crate of this repository may import another one's definitions (`specs/`) and the one proof file `Laws` (of `ub_bigmin` and
# `ub_page`, which have a module `laws`, it is `BoxLaws` and `PageLaws`). It prints each line that imports another crate's other
# proofs, or its `specs/inner`, and each that names a field `inner` in a crate over the tree, but for those of tests, that declares
# none. The status is 1
# where there is such a line. Its last line counts the names that the definitions of two crates or more have, for one thing or for
# two; with --names it lists them first. A proof that imports two such definitions must rename one.
set -u

crates=$(cd "$(dirname "$(readlink -f "${BASH_SOURCE[0]}")")/../crates" && pwd)
cd "$crates" || exit 2
names=$(ls -d -- */ | tr -d / | paste -sd'|')

# The lines of code, definitions and proofs of a crate, each with its file and its number.
lines() {
    find "$1" \( -name out -prune \) -o \( -name '*.rt' -o -name '*.antt' \) -exec grep -Hn "$2" {} +
}

broken=$(
    for crate in ${names//|/ }; do
        lines "$crate" 'Rattle\.' | grep -E "Rattle\.($names)\.(proofs|specs\.inner)\b" |
            grep -vE "Rattle\.$crate\.|\.proofs\.(Box|Page)?Laws\b"
        if [[ $crate != acceptance* ]] && grep -Eq "^$crate:.* ub_tree( |\$)" ../crates.txt &&
            ! lines "$crate" '^ *\(pub \|abbrev \)*inner *:' | grep -q .; then
            lines "$crate" '\.inner\b' | grep -v 'specs\.inner'
        fi
    done
)
if [ -n "$broken" ]; then
    printf '%s\n' "$broken"
fi

# The names of a crate's definitions, each once.
defined() {
    find "$1/specs" -name '*.antt' -exec grep -hoP '^(abbrev pub|unfoldable pub|pub record|pub data|pub) \K[A-Za-z][\w-]*(?= |$)' {} + |
        grep -vxE 'mod|use|record|data' | sort -u
}
twice=$(for crate in ${names//|/ }; do [ -d "$crate/specs" ] && defined "$crate"; done | sort | uniq -d)
[ "${1:-}" = --names ] && printf '%s\n' "$twice"
echo "$(printf '%s\n' "$twice" | grep -c .) names are defined in two crates or more"
[ -z "$broken" ]
