#!/usr/bin/env bash
# Makes the table files of this folder anew, by the sources of a program that writes format 1 (README.md says which).
#
#     tests/old/make.sh FOLDER [PROGRAM]      three files into FOLDER, in 25 to 40 minutes where the program isn't proved yet
#
# PROGRAM loads; where none is named that is bin/ubq, which proves it first. What takes rows out again is
# gaps.rt.txt: in a temporary folder it is laid beside a copy of the crates, as a crate of its own, and run by `rt try`.
set -eu

old=$(dirname "$(readlink -f "${BASH_SOURCE[0]}")")
root=$(cd "$old/../.." && pwd)
ubq=${2:-$root/bin/ubq}
folder=$(cd "$1" && pwd)

"$ubq" load "$root/tests/data/s.csv" "$folder/s.ub" --dims 2 --page-rows 2
"$ubq" load "$old/four.csv" "$folder/four.ub" --dims 4 --page-rows 4 --name four
"$ubq" load "$old/gaps.csv" "$folder/gaps.ub" --dims 3 --page-rows 4 --name gaps

copy=$(mktemp -d "${TMPDIR:-/tmp}/old-XXXXXX")
trap 'rm -rf "$copy"' EXIT
cp "$root/crates.txt" "$root/HANDLES" "$copy"
echo 'gaps: ub_shell ub_tree ub_file ub_store ub_page ub_table' >> "$copy/crates.txt"
for crate in "$root"/crates/*; do
    mkdir -p "$copy/crates/$(basename "$crate")"
    find "$crate" -mindepth 1 -maxdepth 1 ! -name out -exec cp -r {} "$copy/crates/$(basename "$crate")" \;
done
mkdir -p "$copy/crates/gaps/src"
cp "$old/gaps.rt.txt" "$copy/crates/gaps/src/main.rt"
cd "$copy/crates/gaps"
rt try -- "$folder/gaps.ub" 24 1 5 8 21 23 2 3

# Each line says OK where the file is the one that stands here.
cd "$folder"
grep '^    [0-9a-f]*  [a-z]*\.ub$' "$old/README.md" | sha256sum -c
