#!/usr/bin/env python3
"""Makes examples/sales.csv: 1200 sales of a bakery's shops in the first half of a year, as a till might write them, by a small generator
with a fixed seed, so that each run makes the same file. docs/TUTORIAL.md makes a table of it.

usage: python3 examples/make_sales.py > examples/sales.csv

sale      the number of the till's slip: 1, 2, 3 ..
date      2026-01-01 to 2026-06-30, in order
shop      1 to 12; the first shops are the busiest
ware      what was sold, of six
pieces    how many were sold
euros     with two decimals; below zero where the money was paid back
"""
import datetime

SALES = 1200
FIRST = datetime.date(2026, 1, 1)
DAYS = 181
# From the cheapest to the dearest, each 35 cents more than the one before it.
WARES = ["roll", "pretzel", "bun", "croissant", "slice", "bread"]


def numbers(seed):
    """The minimal standard generator of Park and Miller."""
    while True:
        seed = seed * 16807 % 2147483647
        yield seed


def main():
    draw = numbers(2026)

    def below(n):
        return next(draw) // 64 % n

    days = sorted(below(DAYS) for _ in range(SALES))
    print("sale,date,shop,ware,pieces,euros")
    for sale, day in enumerate(days, 1):
        shop = 1 + min(below(12), below(12))
        pieces = 1 + min(below(30), below(30))
        ware = below(len(WARES))
        cents = pieces * (90 + 35 * ware)
        paid = "-" if below(60) == 0 else ""
        print(f"{sale},{FIRST + datetime.timedelta(day)},{shop},{WARES[ware]},{pieces},{paid}{cents // 100}.{cents % 100:02}")


main()
