#!/usr/bin/env python3
"""Draws docs/sweep.svg: how a sweep passes over the regions of examples/trips.csv (two dimensions, at most 16 rows on a page) for

    SELECT day, zone, minutes FROM trips WHERE zone BETWEEN 2 AND 7 ORDER BY day LIMIT 40;

The regions are those of the real table, made by the same rules (tests/lib/regions.py): insertion in the order of the file, splitting a full
region.

usage: python3 docs/sweep.py > docs/sweep.svg"""
import csv
import itertools
import pathlib
import sys

ROOT = pathlib.Path(__file__).resolve().parent.parent
sys.path.insert(0, str(ROOT / "tests"))

from lib.regions import Shape, Table, address, place_of

PAGE_ROWS = 16
ZONES = range(2, 8)
LIMIT = 40
DAYS, ALL_ZONES = 32, 16
CELL, LEFT, TOP = 26, 54, 64


def load(path):
    """The table's regions, whose rows are the days and zones."""
    with open(path, newline="") as file:
        rows = [(int(record["day"]), int(record["zone"])) for record in csv.DictReader(file)]
    return Table(Shape(2, 0, 0, PAGE_ROWS), rows).regions


def main():
    regions = load(ROOT / "examples" / "trips.csv")
    # A span can begin at an address that the region before shares: the least key of an address stands in the one before.
    inside = {point: place_of(regions, (address(point), 0)) for point in itertools.product(range(DAYS), range(ALL_ZONES))}
    events = {}
    for (day, zone), region in inside.items():
        if zone in ZONES:
            events[region] = min(day, events.get(region, day))
    # Past the days that are drawn lies the last region alone, and the frame goes on there.
    events.setdefault(len(regions) - 1, DAYS)
    order = sorted(events, key=lambda region: (events[region], regions[region].first))
    held, fetched, given = [], [], []
    while len(given) < LIMIT:
        while order and (not held or events[order[0]] <= held[0][0]):
            region = order.pop(0)
            fetched.append(region)
            held += [(day, number, zone) for (_, number), (day, zone) in regions[region].rows if zone in ZONES]
            held.sort()
        given.append(held.pop(0))
    draw(regions, inside, events, fetched, given, len(order))


def draw(regions, inside, events, fetched, given, unread):
    width, height = LEFT + DAYS * CELL + 20, TOP + ALL_ZONES * CELL + 70
    print(f'<svg xmlns="http://www.w3.org/2000/svg" viewBox="0 0 {width} {height}" font-family="sans-serif" font-size="12">')
    print(f'<rect width="{width}" height="{height}" fill="#ffffff"/>')
    print(f'<text x="{LEFT}" y="20" font-size="15">SELECT day, zone, minutes FROM trips WHERE zone BETWEEN 2 AND 7 '
          f'ORDER BY day LIMIT {LIMIT};</text>')
    print(f'<text x="{LEFT}" y="40" fill="#444444">{len(regions)} regions; {len(events)} meet the condition; {len(fetched)} '
          f'are fetched, in the order of their numbers; {unread} are never read.</text>')

    def corner(day, zone):
        return LEFT + day * CELL, TOP + (ALL_ZONES - 1 - zone) * CELL

    for (day, zone), region in inside.items():
        x, y = corner(day, zone)
        if region in fetched:
            fill = "#9ecae1" if zone in ZONES else "#deebf7"
        elif region in events:
            fill = "#fdd9a5" if zone in ZONES else "#fff3e0"
        else:
            fill = "#f4f4f4"
        print(f'<rect x="{x}" y="{y}" width="{CELL}" height="{CELL}" fill="{fill}"/>')
    for (day, zone), region in inside.items():
        x, y = corner(day, zone)
        if inside.get((day + 1, zone), region) != region:
            print(f'<path d="M{x + CELL} {y}v{CELL}" stroke="#555555"/>')
        if inside.get((day, zone + 1), region) != region:
            print(f'<path d="M{x} {y}h{CELL}" stroke="#555555"/>')
    shown = {(day, zone) for day, _, zone in given}
    for region in regions:
        seen = {}
        for _, (day, zone) in region.rows:
            seen[day, zone] = seen.get((day, zone), 0) + 1
        for (day, zone), count in seen.items():
            x, y = corner(day, zone)
            colour = "#b30000" if (day, zone) in shown else "#888888"
            for i in range(count):
                print(f'<circle cx="{x + 6 + 7 * (i % 3)}" cy="{y + 19 - 6 * (i // 3)}" r="2" fill="{colour}"/>')
    for turn, region in enumerate(fetched, 1):
        day, zone = min((d, z) for (d, z), r in inside.items() if r == region and z in ZONES)
        x, y = corner(day, zone)
        print(f'<text x="{x + 3}" y="{y + 11}" font-weight="bold" font-size="11" fill="#08306b">{turn}</text>')
    low, high = corner(0, ZONES[-1])[1], corner(0, ZONES[0])[1] + CELL
    print(f'<rect x="{LEFT}" y="{low}" width="{DAYS * CELL}" height="{high - low}" fill="none" stroke="#08306b" stroke-width="2"/>')
    line = LEFT + (given[-1][0] + 1) * CELL
    print(f'<path d="M{line} {TOP - 6}V{TOP + ALL_ZONES * CELL + 6}" stroke="#b30000" stroke-width="2" stroke-dasharray="6 4"/>')
    for day in range(0, DAYS, 4):
        print(f'<text x="{corner(day, 0)[0] + 6}" y="{TOP + ALL_ZONES * CELL + 16}">{day}</text>')
    for zone in range(0, ALL_ZONES, 3):
        print(f'<text x="{LEFT - 24}" y="{corner(0, zone)[1] + 18}">{zone}</text>')
    print(f'<text x="{LEFT + DAYS * CELL // 2 - 40}" y="{TOP + ALL_ZONES * CELL + 34}">day: the order of the sweep</text>')
    print(f'<text x="14" y="{TOP + ALL_ZONES * CELL // 2}" transform="rotate(-90 14 {TOP + ALL_ZONES * CELL // 2})">zone</text>')
    print(f'<text x="{LEFT}" y="{TOP + ALL_ZONES * CELL + 56}" fill="#444444">Blue: fetched. Orange: meets the condition (the frame), '
          f'and is never read. Red points: the rows given. The dashed line: the last of them.</text>')
    print("</svg>")


if __name__ == "__main__":
    main()
