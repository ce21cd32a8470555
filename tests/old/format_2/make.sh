#!/usr/bin/env bash
# Makes the table files of this folder anew, by the sources of a program that writes format 2 (../README.md says which).
#
#     tests/old/format_2/make.sh FOLDER [PROGRAM]      three files into FOLDER; the program is proved first where that isn't done
#
# Where no program is named, it is bin/ubq.
set -eu

here=$(dirname "$(readlink -f "${BASH_SOURCE[0]}")")
root=$(cd "$here/../../.." && pwd)
ubq=${2:-$root/bin/ubq}
folder=$(cd "$1" && pwd)

"$ubq" load "$root/tests/data/s.csv" "$folder/s.ub" --dims 2 --page-rows 2
"$ubq" load "$here/../four.csv" "$folder/four.ub" --dims 4 --page-rows 4 --name four
"$ubq" load "$here/../gaps.csv" "$folder/gaps.ub" --dims 3 --page-rows 4 --name gaps
"$ubq" run "$folder/gaps.ub" "$here/gaps.sql"

# Each line says OK where the file is the one that stands here.
cd "$folder"
grep '^    [0-9a-f]*  format_2/' "$here/../README.md" | sed 's#format_2/##' | sha256sum -c
