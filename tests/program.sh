#!/usr/bin/env bash
# Runs the real program in a folder for scratch, by hand: loading, asking and changing table
# files, the files that it refuses, standard input, and what it does where nothing can be written. What can't be tried on this
# machine is named as skipped. The last line says how many are right; the status is 1 where one is not.
#
#   tests/program.sh [PROGRAM]
set -u

root=$(cd "$(dirname "$(readlink -f "${BASH_SOURCE[0]}")")/.." && pwd)
[ $# -gt 0 ] || "$root/bin/ubq" --prove || exit 2
ubq=$(readlink -f "${1:-$root/crates/ubq/out/ubq}")
room=$(mktemp -d "${TMPDIR:-/tmp}/ubq-program-XXXXXX") || exit 2
trap 'chmod -R u+w "$room"; rm -rf "$room"' EXIT
cd "$room" || exit 2

right=0
wrong=0
# What the program is run by: by nothing, or as another user.
as=()
judge() { # what holds, and whether it does
    if [ "$2" = yes ]; then
        right=$((right + 1))
    else
        wrong=$((wrong + 1))
        echo "WRONG: $1"
        sed 's/^/    /' out
    fi
}

# Whether standard error is as it should be after this status: of a failed file one line says which it is and why, and else it is
# empty.
errs() {
    case $1 in
    4) [ "$(wc -l <err)" -le 1 ] && ! grep -qvE "^ubq: (can't |nothing was kept in |kept in )" err ;;
    *) [ ! -s err ] ;;
    esac
}

# What is tried, the status that is wanted, whether `all` that is written is wanted or a `line` of it, which, and then the words.
try() {
    local what=$1 status=$2 part=$3 wanted=$4 code is=no
    shift 4
    "${as[@]}" "$ubq" "$@" >out 2>err
    code=$?
    case $part in
    all) printf -- "$wanted" | cmp -s - out && is=yes ;;
    line) grep -qxF -- "$wanted" out && is=yes ;;
    esac
    if [ "$code" -ne "$status" ] || ! errs "$code"; then is=no; fi
    judge "$what (status $code)" "$is"
}

# The same where a file fails: the line that is wanted on standard error, and then the words.
misses() {
    local wanted=$1 is=no
    shift
    "${as[@]}" "$ubq" "$@" >out 2>err
    if [ $? -eq 4 ] && printf '! Device\n' | cmp -s - out && printf '%s\n' "ubq: can't $wanted" | cmp -s - err; then is=yes; fi
    cat err >>out
    judge "it tells that it can't $wanted" "$is"
}

# A query: the status that is wanted, its answers on standard output and its notes on standard error, and then the words behind `query`.
asks() {
    local what=$1 status=$2 answers=$3 notes=$4 code is=no
    shift 4
    "$ubq" query "$@" >out 2>err
    code=$?
    if [ "$code" -eq "$status" ] && printf -- "$answers" | cmp -s - out && printf -- "$notes" | cmp -s - err; then is=yes; fi
    cat err >>out
    judge "$what (status $code)" "$is"
}

skip() { # what can't be tried, and why
    echo "skipped: $1: $2"
}

holds() { # what holds, and a command that shows it
    local what=$1
    shift
    if "$@"; then judge "$what" yes; else judge "$what" no; fi
}

printf 'x,y,m\n1,1,10\n2,3,20\n3,0,5\n0,2,7\n2,3,1\n' >s.csv
printf 'SELECT * FROM t WHERE x BETWEEN 2 AND 3;' >row1.sql
printf 'SELECT COUNT(*) FROM t;' >count.sql
printf ';; -- nothing' >nothing.sql
printf 'INSERT INTO t VALUES (2, 3, -4);' >insert.sql
printf 'DELETE FROM t WHERE x = 2;' >delete.sql
printf 'DELETE FROM t WHERE x = 9;' >none.sql
printf 'SELECT m FROM t WHERE x = 2 AND y = 3;' >point.sql
row1='x,y,m\n2,3,20\n3,0,5\n2,3,1\n-- rows 3, pages 3\n'

# ---- a table file
try 'load tells rows and regions' 0 all '-- rows 5, regions 3\n' load s.csv s.ub --dims 2 --page-rows 2
cp s.ub before.ub
try 'run asks it' 0 all "$row1" run s.ub row1.sql
try 'run asks it again' 0 all "$row1" run s.ub row1.sql
try 'run of nothing writes nothing' 0 all '' run s.ub nothing.sql
holds 'the table file is as it was' cmp -s before.ub s.ub
try 'a refused statement' 1 all '! UnknownTable at 14\n' run s.ub <(printf 'SELECT * FROM u;')
try 'a script from standard input' 0 all "$row1" run s.ub - <row1.sql
try 'data from standard input' 0 all '-- rows 5, regions 3\n' load - piped.ub --dims 2 --page-rows 2 <s.csv
holds 'it is the same table file' cmp -s s.ub piped.ub
try 'the table has the name that was given' 0 all '-- rows 5, regions 1\n' load s.csv named.ub --dims 2 --name sales
try 'and is asked by it' 0 all 'COUNT(*)\n5\n-- rows 1, pages 1\n' run named.ub <(printf 'SELECT COUNT(*) FROM sales;')
try 'try answers the same' 0 all "$row1" try s.csv row1.sql --dims 2 --page-rows 2
try 'try takes data from standard input' 0 all "$row1" try - row1.sql --dims 2 --page-rows 2 <s.csv
try 'try takes a script from standard input' 0 all "$row1" try s.csv - --dims 2 --page-rows 2 <row1.sql
try 'but not both' 2 all 'error: DATA and SCRIPT are both standard input\n' try - - --dims 2 <s.csv

# ---- a table file that is changed
cp s.ub changed.ub
try 'an INSERT' 0 all '-- inserted 6\n' run changed.ub insert.sql
try 'the next run sees its row' 0 all 'm\n20\n1\n-4\n-- rows 3, pages 2\n' run changed.ub point.sql
holds 'it took a page' test "$(stat -c %s changed.ub)" -eq $((4096 * 6))
cp s.ub again.ub
try 'the same INSERT on a copy' 0 all '-- inserted 6\n' run again.ub - <insert.sql
holds 'makes the same file' cmp -s changed.ub again.ub
try 'a DELETE' 0 all '-- deleted 3\n' run changed.ub delete.sql
try 'the next run misses its rows' 0 all 'm\n-- rows 0, pages 1\n' run changed.ub point.sql
try 'the others stand' 0 all 'COUNT(*)\n3\n-- rows 1, pages 2\n' run changed.ub count.sql
try 'a number is not given twice' 0 all '-- inserted 7\n' run changed.ub insert.sql
try 'a DELETE of all rows' 0 all '-- deleted 4\n' run changed.ub <(printf 'DELETE FROM t;')
try 'leaves an empty table' 0 all 'COUNT(*)\n0\n-- rows 1, pages 1\n' run changed.ub count.sql
try 'into which rows go again' 0 all '-- inserted 8\n' run changed.ub insert.sql
cp s.ub same.ub
try 'a script that changes nothing' 1 all '-- deleted 0\n! ValueCount at 53\n! ValueRange at 81\n! Syntax at 97\n' \
    run same.ub <(printf '%s' "$(cat none.sql) INSERT INTO t VALUES (1, 2); INSERT INTO t VALUES (1, -2, 3); EXPLAIN DELETE FROM t;")
holds 'leaves the file byte for byte' cmp -s before.ub same.ub
# A run that is killed after its INSERT: the pipe that it writes to is never read.
{ cat insert.sql && for _ in $(seq 3000); do printf 'SELECT * FROM t;'; done; } >long.sql
mkfifo pipe
exec 9<>pipe
"$ubq" run same.ub long.sql >pipe 2>err &
sleep 2
kill -9 $!
wait $! 2>err
exec 9>&-
try 'a run that was killed leaves the table as it was' 0 all 'COUNT(*)\n5\n-- rows 1, pages 3\n' run same.ub count.sql
holds 'byte for byte' cmp -s before.ub same.ub
try 'and statements run on it' 0 all '-- deleted 2\n' run same.ub delete.sql

# ---- a table with a signed dimension
printf 'x,m\n-1,10\n0,20\n-2147483648,30\n2147483647,40\n' >signed.csv
printf 'SELECT x, m FROM t WHERE x < 0 ORDER BY x;' >below.sql
printf 'SELECT * FROM t;' >all.sql
below='x,m\n-2147483648,30\n-1,10\n-- rows 2, pages 1\n'
try 'a signed dimension' 0 all '-- rows 4, regions 2\n' load signed.csv signed.ub --dims 1 --page-rows 2 --signed 1
try 'is asked by its values' 0 all "$below" run signed.ub below.sql
try 'and from its data' 0 all "$below" try signed.csv below.sql --dims 1 --page-rows 2 --signed 1
try 'a value that it does not have' 1 all '! ValueRange at 22\n' run signed.ub <(printf 'INSERT INTO t VALUES (2147483648, 0);')
holds 'the header has its mask' test "$(od -An -tu1 -j4 --read-bytes=8 signed.ub | tr -s ' ')" = ' 3 0 1 1 2 1 0 0'
"$ubq" run signed.ub all.sql | grep -v '^-- ' >told.csv
holds 'all rows are told as they were given' cmp -s signed.csv told.csv
try 'and loaded again' 0 all '-- rows 4, regions 2\n' load told.csv twice.ub --dims 1 --page-rows 2 --signed 1
holds 'they make the same file' cmp -s signed.ub twice.ub
try 'without a mask they are refused' 3 all '! OutOfRange row 1 column 1\n' load signed.csv signed.ub --dims 1
try 'a mask of a dimension that is not there' 2 all '! BadMask\n' load signed.csv signed.ub --dims 1 --signed 2
try 'before data that are not there' 2 all '! BadMask\n' load missing.csv new.ub --dims 3 --signed 8
holds 'and nothing is made' test ! -e new.ub
holds 'the table is as it was' cmp -s signed.ub twice.ub
try 'a mask that no table has' 2 line "error: invalid value '16' for '--signed <MASK>': 16 is not in 0..=15" load signed.csv s.ub --dims 4 --signed 16
try 'a table with none made signed' 0 all '-- rows 5, regions 3\n' load <("$ubq" run s.ub all.sql | grep -v '^-- ') both.ub --dims 2 --page-rows 2 --signed 3
try 'answers the same' 0 all "$row1" run both.ub row1.sql

# ---- what a table file tells by its header
facts_of_s='table t\ndimension x\ndimension y\nmeasure m\nrows 5\nnext 6\nregions 3\npage-rows 2\n'
load_of_s='load-with --dims 2 --signed 0 --page-rows 2 --name t\n'
try 'a table file is described' 0 all "${facts_of_s}levels 1\nformat 3\n${load_of_s}" describe s.ub
holds 'and stays as it was' cmp -s before.ub s.ub
try 'one of format 1' 0 all "${facts_of_s}directory-pages 1\nformat 1\n${load_of_s}" describe "$root/tests/old/s.ub"
try 'one of format 2' 0 all "${facts_of_s}levels 1\nformat 2\n${load_of_s}" describe "$root/tests/old/format_2/s.ub"
head -c 4096 "$root/tests/old/s.ub" >cut.ub
try 'of whose pages there is the first alone' 0 all "${facts_of_s}directory-pages 1\nformat 1\n${load_of_s}" describe cut.ub
try 'a table file that is not there' 4 all '! Device\n' describe missing.ub
try 'a folder' 4 all '! Device\n' describe .
try 'a text' 3 all '! BadSize\n' describe s.csv

# ---- whether its pages are well
try 'a table file is checked' 0 all '-- rows 5, regions 3\n' check s.ub
holds 'and stays as it was' cmp -s before.ub s.ub
try 'one of format 1 is not' 3 all '! OldFormat page 0\n' check "$root/tests/old/s.ub"
try 'a table file to check that is not there' 4 all '! Device\n' check missing.ub
try 'a text to check' 3 all '! BadSize\n' check s.csv
{ head -c 4096 s.ub && printf '\0' && tail -c +4098 s.ub; } >kind.ub
try 'a region that is none' 3 all '! WrongKind page 1\n' check kind.ub

# ---- files that are refused
: >none.ub
try 'a file of no bytes is not described' 3 all '! NoPage\n' describe none.ub
try 'a file of no bytes' 3 all '! NoPage\n' run none.ub row1.sql
for size in 1 100 4095 4097 20479; do
    head -c $size s.ub >cut.ub
    try "a file cut to $size bytes" 3 all '! BadSize\n' run cut.ub row1.sql
done
for pages in 1 2 3 4; do
    head -c $((4096 * pages)) s.ub >cut.ub
    try "a file cut to $pages of its 5 pages" 3 all '! NoPage\n' run cut.ub row1.sql
done
{ cat s.ub && printf x; } >cut.ub
try 'a file with a byte more' 3 all '! BadSize\n' run cut.ub row1.sql
{ printf '\0' && tail -c +2 s.ub; } >kind.ub
try 'a file whose first byte is 0' 3 all '! WrongKind page 0\n' run kind.ub row1.sql
for old in s four gaps format_2/s format_2/four format_2/gaps; do
    cp "$root/tests/old/$old.ub" old.ub
    try "a table of an older format, $old.ub" 3 all '! OldFormat page 0\n' run old.ub row1.sql
    try 'to which nothing is put' 3 all '! OldFormat page 0\n' run old.ub insert.sql
    holds 'and it stays as it was' cmp -s old.ub "$root/tests/old/$old.ub"
    case $old in
    *gaps) counts='-- rows 16, regions 6\n' csv=$root/tests/old/gaps.csv ;;
    *four) counts='-- rows 18, regions 7\n' csv=$root/tests/old/four.csv ;;
    *s) counts='-- rows 5, regions 3\n' csv=$root/tests/data/s.csv ;;
    esac
    printf 'what stood here' >new.ub
    try "is made anew, $old.ub" 0 all "$counts" upgrade old.ub new.ub
    holds 'and stays as it was' cmp -s old.ub "$root/tests/old/$old.ub"
    "$root/tests/old/check.py" new.ub "$csv" >out 2>err
    holds 'the new one is sound, with the same rows' test $? -eq 0
    holds 'and of format 3, with no signed dimension' test "$(od -An -tu1 -j4 --read-bytes=2 new.ub)$(od -An -tu1 -j9 --read-bytes=1 new.ub)" = '   3   0   0'
    try 'it is not made anew once more' 3 all '! WrongKind page 0\n' upgrade new.ub newer.ub
    holds 'and nothing is made' test ! -e newer.ub
    try 'nor by the same name' 2 all '! SameFile\n' upgrade old.ub old.ub
    holds 'which looks at no file' cmp -s old.ub "$root/tests/old/$old.ub"
    try 'by another name of it, it is there itself' 0 all "$counts" upgrade old.ub ./old.ub
    holds 'the same as the new one' cmp -s old.ub new.ub
done
for old in s format_2/s; do
    "$ubq" upgrade "$root/tests/old/$old.ub" new.ub >out 2>err
    try 'the upgraded table is asked' 0 all "$row1" run new.ub row1.sql
    try 'and goes on with the next number' 0 all '-- inserted 6\n' run new.ub insert.sql
    cp new.ub kept.ub
    { head -c 12288 "$root/tests/old/$old.ub" && printf '\0' && tail -c +12290 "$root/tests/old/$old.ub"; } >old.ub
    try 'an old table with a page that is damaged' 3 all '! WrongKind page 3\n' upgrade old.ub new.ub
    head -c 16384 "$root/tests/old/$old.ub" >old.ub
    try 'or that is cut' 3 all '! NoPage\n' upgrade old.ub new.ub
    head -c 16385 "$root/tests/old/$old.ub" >old.ub
    try 'or cut within a page' 3 all '! BadSize\n' upgrade old.ub new.ub
    try 'no old table' 4 all '! Device\n' upgrade missing.ub new.ub
    try 'a folder for it' 4 all '! Device\n' upgrade . new.ub
    holds 'the new one is as it was, byte for byte' cmp -s new.ub kept.ub
    try 'a folder for the new one' 4 all '! Device\n' upgrade "$root/tests/old/$old.ub" .
    try 'one in a folder that is not there' 4 all '! Device\n' upgrade "$root/tests/old/$old.ub" missing/new.ub
done
rm -f new.ub
none='No such file or directory (os error 2)'
misses "read missing.csv: $none" load missing.csv new.ub --dims 2
misses "read missing.sql: $none" run s.ub missing.sql
misses "open missing.ub: $none" run missing.ub row1.sql
misses "open missing.ub: $none" describe missing.ub
misses "make missing/new.ub: $none" load s.csv missing/new.ub --dims 2
misses 'read .: Is a directory (os error 21)' load . new.ub --dims 2
misses 'open .: Is a directory (os error 21)' check .
misses 'make .: Is a directory (os error 21)' load s.csv . --dims 2
misses 'read standard input: Is a directory (os error 21)' run s.ub - <.
try 'no table file' 4 all '! Device\n' run missing.ub row1.sql
try 'no script' 4 all '! Device\n' run s.ub missing.sql
mkdir folder
try 'a folder for a table file' 4 all '! Device\n' run folder row1.sql
try 'a folder to load into' 4 all '! Device\n' load s.csv folder --dims 2
try 'a folder for data' 4 all '! Device\n' load folder new.ub --dims 2
holds 'nothing was made' test ! -e new.ub
try 'no data: the table file stays' 4 all '! Device\n' load missing.csv s.ub --dims 2
holds 'byte for byte' cmp -s before.ub s.ub
try 'data and table of one name' 2 all '! SameFile\n' load s.csv s.csv --dims 2
holds 'the data are as they were' test "$(head -c 5 s.csv)" = x,y,m
# A file that can only be read. Where this is the superuser, whom that doesn't bind, it is another user who tries it.
if [ "$(id -u)" -eq 0 ]; then as=(setpriv --reuid=65534 --regid=65534 --clear-groups); fi
if "${as[@]}" "$ubq" --version >out 2>err; then
    chmod a+rx .
    chmod a=r s.ub
    try 'a table file that can only be read' 0 all "$row1" run s.ub row1.sql
    try 'and is checked' 0 all '-- rows 5, regions 3\n' check s.ub
    try 'and is described' 0 all "${facts_of_s}levels 1\nformat 3\n${load_of_s}" describe s.ub
    try 'and is not loaded into' 4 all '! Device\n' load s.csv s.ub --dims 2
    try 'no row is put into it' 4 all '! Device\n' run s.ub insert.sql
    denied='Permission denied (os error 13)'
    misses "make s.ub: $denied" load s.csv s.ub --dims 2
    misses "change s.ub: $denied" run s.ub insert.sql
    try 'none is put where there is room' 4 all '! Device\n' run s.ub <(printf 'INSERT INTO t VALUES (3, 0, 6);')
    try 'none is taken out' 4 all '! Device\n' run s.ub delete.sql
    try 'nor is a DELETE of no row done' 4 all '! Device\n' run s.ub none.sql
    holds 'it is as it was' cmp -s before.ub s.ub
    chmod a= s.ub
    try 'a table file that can not be read either' 4 all '! Device\n' run s.ub row1.sql
    misses "open s.ub: $denied" run s.ub row1.sql
    chmod u=rw s.ub
    cp "$root/tests/old/s.ub" only.ub
    cp before.ub new.ub
    chmod a=r only.ub new.ub
    try 'an old table that can only be read, and so can the new one' 4 all '! Device\n' upgrade only.ub new.ub
    holds 'which is as it was' cmp -s before.ub new.ub
    rm -f new.ub
    chmod a+w .
    try 'and is made anew where that can be written' 0 all '-- rows 5, regions 3\n' upgrade only.ub new.ub
    chmod go-w .
    rm -f new.ub only.ub
else
    skip 'a table file that can only be read' "no other user can run $ubq"
fi
as=()
printf 'x,y,m\n1,2,3\n4,a,5\n' >bad.csv
try 'data refused at the last row' 3 all '! BadNumber row 2 column 2\n' load bad.csv s.ub --dims 2
try 'and the table is as it was' 0 all "$row1" run s.ub row1.sql
{ echo x,y,m && seq 300 | awk '{ print $1 % 16 "," $1 ",1" }' && echo 4,4294967296,1; } >bad.csv
try 'data of 300 rows refused at the last one' 3 all '! OutOfRange row 301 column 2\n' load bad.csv s.ub --dims 2
try 'leave it as it was too' 0 all "$row1" run s.ub row1.sql
holds 'byte for byte, after refused data' cmp -s before.ub s.ub
try 'it is loaded again' 0 all '-- rows 5, regions 3\n' load s.csv s.ub --dims 2 --page-rows 2
holds 'the same as before' cmp -s before.ub s.ub
try 'a table of one row over a larger one' 0 all '-- rows 1, regions 1\n' load <(printf 'x,m\n7,7\n') s.ub --dims 1
try 'holds that row alone' 0 all 'COUNT(*)\n1\n-- rows 1, pages 1\n' run s.ub count.sql

# ---- command lines
try 'no words' 2 line 'Usage: ubq <COMMAND>'
try 'no words: where the help is' 2 line "For more information, try '--help'."
try 'no such command' 2 line 'Usage: ubq <COMMAND>' ask
try 'no such command: where the help is' 2 line "For more information, try '--help'." ask
try 'five dimensions' 2 line "error: invalid value '5' for '--dims <D>': 5 is not in 1..=4" load s.csv s.ub --dims 5
try 'no dimensions' 2 line 'Usage: ubq load --dims <D> <DATA> <TABLE>' load s.csv s.ub
try 'the help' 0 line 'Usage: ubq <COMMAND>' --help
try 'the help of load' 0 line 'Usage: ubq load [OPTIONS] --dims <D> <DATA> <TABLE>' load --help
try 'the help of run' 0 line 'Usage: ubq run <TABLE> <SCRIPT>' run --help
try 'standard input in the help of run' 0 line '       ubq run <TABLE> -         (the script is read from standard input)' run --help
try 'and where the script is missing' 2 line '       ubq run <TABLE> -         (the script is read from standard input)' run s.ub
try 'the help of check' 0 line 'Usage: ubq check <TABLE>' check --help
try 'the help of describe' 0 line 'Usage: ubq describe <TABLE>' describe --help
try 'the help of upgrade' 0 line 'Usage: ubq upgrade <OLD> <NEW>' upgrade --help
try 'no new table' 2 line 'Usage: ubq upgrade <OLD> <NEW>' upgrade s.ub
try 'the version' 0 all 'ubq 0.1.0 (table format 3)\n' --version

# ---- where nothing can be written
if [ -e /dev/full ]; then
    try 'a full device for a table file' 4 all '! Device\n' load s.csv /dev/full --dims 2
    try 'and as one that is asked: it has no bytes' 3 all '! NoPage\n' run /dev/full row1.sql
    "$ubq" describe before.ub >/dev/full 2>err
    holds 'a full device for what a table file tells' test $? -eq 4
    "$ubq" run before.ub row1.sql >/dev/full 2>err
    holds 'a full device for what is written' test $? -eq 4
    cp before.ub told.ub
    "$ubq" run told.ub insert.sql >/dev/full 2>err
    holds 'a full device for the line of an INSERT' test $? -eq 4
    try 'which is done all the same' 0 all 'm\n20\n1\n-4\n-- rows 3, pages 2\n' run told.ub point.sql
    "$ubq" load s.csv late.ub --dims 2 --page-rows 2 >/dev/full 2>err
    holds 'a full device after the table was loaded' test $? -eq 4
    holds 'which is there all the same' cmp -s before.ub late.ub
    "$ubq" upgrade "$root/tests/old/s.ub" late.ub >/dev/full 2>err
    holds 'a full device after the table was made anew' test $? -eq 4
    try 'which is there all the same' 0 all "$row1" run late.ub row1.sql
    try 'a full device for the new table' 4 all '! Device\n' upgrade "$root/tests/old/s.ub" /dev/full
fi

# ---- where the system fails in the middle: a call of the C library that fails each time, before the program's
if command -v cc >/dev/null; then
    printf '#include <errno.h>\nint fsync(int file) { (void)file; errno = EIO; return -1; }\n' >sync.c
    cc -shared -fPIC -o sync.so sync.c
    as=(env LD_PRELOAD="$room/sync.so")
    cp before.ub failing.ub
    io='Input/output error (os error 5)'
    "${as[@]}" "$ubq" load s.csv unsynced.ub --dims 2 >out 2>err
    holds 'a table that is not made to last is status 4' test $? -eq 4
    holds 'which is told' test "$(cat out)" = '! Device'
    holds 'with its file and the reason' grep -qE "^ubq: (can't make|nothing was kept in) unsynced.ub: " err
    "${as[@]}" "$ubq" run failing.ub insert.sql >out 2>err
    holds 'an INSERT whose table is not made to last is status 4' test $? -eq 4
    holds 'its line is told, and then the failure' test "$(tail -n 1 out)" = '! Device'
    holds 'with the file and the reason' grep -qxF "ubq: nothing was kept in failing.ub: $io" err
    holds 'and the file is as it was' cmp -s before.ub failing.ub
    holds 'with nothing beside it' test ! -e failing.ub-journal -a ! -e failing.ub-journal.tmp
    try 'what only asks makes nothing last' 0 all "$row1" run before.ub row1.sql
    as=()
else
    skip 'a sync that fails' 'there is no cc'
fi

# ---- queries, and rows of a CSV file behind those of a table
"$ubq" load s.csv asked.ub --dims 2 --page-rows 2 >/dev/null
asks 'answers and notes stand apart' 0 'COUNT(*)\n5\n' '-- rows 1, pages 3\n' asked.ub 'SELECT COUNT(*) FROM t;'
asks 'a refused statement is noted, and the next one answered' 1 'COUNT(*)\n5\n' '! UnknownTable at 14\n-- rows 1, pages 3\n' \
    asked.ub 'SELECT * FROM u; SELECT COUNT(*) FROM t;'
asks 'no table' 4 '' "! Device\nubq: can't open nix.ub: No such file or directory (os error 2)\n" nix.ub 'SELECT * FROM t;'
asks 'a point with no row lies in one region' 0 'm\n' '-- rows 0, pages 1\n' asked.ub 'SELECT m FROM t WHERE x = 77 AND y = 77;'
"$ubq" query asked.ub 'SELECT * FROM t' >export.csv 2>/dev/null
holds 'an export is the CSV file again' cmp -s s.csv export.csv
"$ubq" load export.csv again.ub --dims 2 --page-rows 2 >/dev/null
holds 'and the same table, byte for byte' cmp -s asked.ub again.ub
# The same of the examples, by the words with which `describe` ends.
cp "$root/examples/trips.csv" .
"$root/examples/words.py" new sales.words date:date shop ware:word pieces euros:2
"$root/examples/words.py" in sales.words <"$root/examples/sales.csv" >sales.csv
for name in trips sales; do
    "$ubq" load "$name.csv" "$name.ub" --dims 2 --name "$name" --page-rows 16 >/dev/null
    "$ubq" query "$name.ub" "SELECT * FROM $name" >export.csv 2>/dev/null
    "$ubq" load export.csv again.ub $("$ubq" describe "$name.ub" | sed -n 's/^load-with //p') >/dev/null
    holds "so is an export of the $name" cmp -s "$name.ub" again.ub
done
holds 'a pipe that is closed after a line has that line' test "$("$ubq" query asked.ub 'SELECT * FROM t' 2>/dev/null | head -n 1)" = x,y,m
if [ -e /dev/full ]; then
    "$ubq" query asked.ub 'SELECT COUNT(*) FROM t' >/dev/full 2>err
    holds 'answers that can not be written: a failed output, and no note' test $? -eq 4 -a ! -s err
    "$ubq" query asked.ub 'SELECT COUNT(*) FROM t' >out 2>/dev/full
    holds 'notes that can not be written are let go' test $? -eq 0
    holds 'and the answers stand' test "$(tail -n 1 out)" = 5
fi
printf 'm,y,x\n-4,3,2\n9,0,0\n' >more.csv
cp asked.ub was.ub
try 'rows with their columns in another order' 0 all '-- appended 2, rows 7\n' append asked.ub more.csv
asks 'stand behind those of the table' 0 'm\n20\n1\n-4\n' '-- rows 3, pages 2\n' asked.ub 'SELECT m FROM t WHERE x = 2 AND y = 3;'
try 'rows from standard input' 0 all '-- appended 2, rows 9\n' append asked.ub - <more.csv
for wrong_data in 'x,y\n1,2\n/! ColumnCount' 'x,y,z,m\n1,2,3,4\n/! BadName column 3' 'x,x,m\n1,2,3\n/! BadName column 2' '1,2,3\n/! BadName column 1' \
    'm,y,x\n1,2,-3\n/! OutOfRange row 1 column 3' 'x,y,m\n1,2,3\n4,a,5\n/! BadNumber row 2 column 2' 'x,y,m\n1,2\n/! Csv' '/! NoHeader'; do
    printf "${wrong_data%/*}" >wrong.csv
    cp was.ub kept.ub
    try "refused data: ${wrong_data#*/}" 3 line "${wrong_data#*/}" append kept.ub wrong.csv
    holds 'and the table is byte for byte as it was' cmp -s was.ub kept.ub
done
printf 'x,y,m\n' >none.csv
try 'a header alone' 0 all '-- appended 0, rows 5\n' append kept.ub none.csv
holds 'leaves the table byte for byte' cmp -s was.ub kept.ub
"$ubq" query kept.ub 'SELECT * FROM t' 2>/dev/null | timeout 60 "$ubq" append kept.ub - >out 2>err
holds 'a table is appended to itself, with no wait for its own lock' test "$(cat out)" = '-- appended 5, rows 10'
"$ubq" check kept.ub >out 2>err
holds 'and is sound' test $? -eq 0

echo "$right right, $wrong wrong"
[ "$wrong" -eq 0 ]
