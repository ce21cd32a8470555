#!/usr/bin/env python3
"""Makes examples/trips.csv: 400 taxi trips of June, by a small generator with a fixed seed, so that each run makes the same file.

usage: python3 examples/make_trips.py > examples/trips.csv

day       1 to 30; there are more trips at the end of a week
zone      0 to 11, where the trip began; the first zones are the busiest
minutes   how long it took
fare      in cents; below zero where a fare was paid back
"""

TRIPS = 400


def numbers(seed):
    """The minimal standard generator of Park and Miller."""
    while True:
        seed = seed * 16807 % 2147483647
        yield seed


def main():
    draw = numbers(1997)

    def below(n):
        return next(draw) // 64 % n

    print("day,zone,minutes,fare")
    for _ in range(TRIPS):
        day = 1 + below(30)
        if below(3) == 0:
            day = day - day % 7 + 6 if day < 28 else day
        zone = min(below(12), below(12))
        minutes = 4 + below(20) + below(20) * (zone // 3)
        fare = 350 + 85 * minutes + 50 * below(6)
        if below(40) == 0:
            fare = -fare
        print(f"{day},{zone},{minutes},{fare}")


main()
