#!/usr/bin/env python3
"""What `bench N` must print, by another way: a descent of the cells of the Z-curve.

    bench/checksum.py N

For each number of dimensions N boxes and addresses are made at random, in the same order as there, and of each the least address of the box is
sought that isn't before the address. The line has the number of dimensions, and a sum of what was found."""
import sys

BITS = 32
WORD = 2**64 - 1
SUM = 2**128 - 1
MOST_DIMS = 4


class Numbers:
    """The random numbers of `bench`: the generator SplitMix64."""

    def __init__(self, seed):
        self.state = seed

    def word(self):
        """The next one, of 64 bits."""
        self.state = (self.state + 0x9E3779B97F4A7C15) & WORD
        mixed = ((self.state ^ (self.state >> 30)) * 0xBF58476D1CE4E5B9) & WORD
        mixed = ((mixed ^ (mixed >> 27)) * 0x94D049BB133111EB) & WORD
        return mixed ^ (mixed >> 31)

    def coordinate(self):
        return self.word() >> BITS

    def box(self):
        """Two bounds for each dimension, of as many as there can be."""
        pairs = [sorted((self.coordinate(), self.coordinate())) for _ in range(MOST_DIMS)]
        return [low for low, _ in pairs], [high for _, high in pairs]

    def address(self, dims):
        whole = self.word() << 64
        return (whole | self.word()) & (2 ** (BITS * dims) - 1)


def next_in_box(low, high, address, dims):
    """The least address of a point of the box that isn't before this one, or None."""

    def in_cell(free, prefix, least, greatest):
        """The same among the addresses that begin with this prefix and have so many free bits, whose points lie between these corners."""
        if any(greatest[dim] < low[dim] or high[dim] < least[dim] for dim in range(dims)):
            return None
        if ((prefix + 1) << free) - 1 < address:
            return None
        if free == 0:
            return prefix
        dim = dims - 1 - (free - 1) % dims
        middle = (least[dim] + greatest[dim] + 1) // 2
        found = in_cell(free - 1, prefix * 2, least, [*greatest[:dim], middle - 1, *greatest[dim + 1 :]])
        if found is not None:
            return found
        return in_cell(free - 1, prefix * 2 + 1, [*least[:dim], middle, *least[dim + 1 :]], greatest)

    return in_cell(BITS * dims, 0, [0] * dims, [2**BITS - 1] * dims)


def checksum(dims, count):
    """The sum of what is found for so many boxes and addresses."""
    numbers, whole = Numbers(dims), 0
    for _ in range(count):
        low, high = numbers.box()
        found = next_in_box(low, high, numbers.address(dims), dims)
        whole = ((whole << 1 | whole >> 127) & SUM) ^ (SUM if found is None else found)
    return whole


def main():
    if len(sys.argv) != 2 or not sys.argv[1].isdecimal():
        sys.exit(__doc__)
    for dims in range(1, MOST_DIMS + 1):
        print(dims, checksum(dims, int(sys.argv[1])))


if __name__ == "__main__":
    main()
