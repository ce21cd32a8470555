#!/usr/bin/env bash
# Writes a made table as CSV: three dimensions of coordinates below 2^20 in random order, and two measures, one of 100 values and
# one of many. With XS the first dimension has that many values.
# usage: bench/table.sh [ROWS [XS]]     (default 200000 rows)
set -euo pipefail
awk -v n="${1:-200000}" -v xs="${2:-1048576}" 'BEGIN {
    print "x,y,z,kind,amount"
    a = 1
    for (i = 0; i < n; i++) {
        a = (a * 16807) % 2147483647; x = int(a / 64) % xs
        a = (a * 16807) % 2147483647; y = int(a / 64) % 1048576
        a = (a * 16807) % 2147483647; z = int(a / 64) % 1048576
        print x "," y "," z "," i % 100 "," a % 100000
    }
}'
