"""The regions of a table, by the rules of `ub_region` (specs/Rows.antt, Regions.antt, Spans.antt), written apart from the program: which
region a row is put into, where a full one is cut, when two are joined, and which of them a sweep of some boxes comes to.

A point is a coordinate for each dimension. A key is the address of a point and the number of a row. A box is a pair of bounds for each
dimension, both inside. The regions of a table are a list in the order of their first keys, of which each region holds the rows whose keys
aren't before its first key, and are before that of the next region.
"""
import bisect

BITS = 32
GREATEST = 2**BITS - 1
# Of a signed dimension a coordinate is the value and so much more.
HALF = 2**31
ORIGIN = (0, 0)


def address(point):
    """The bits of all coordinates, from the highest place down; at each place the first dimension's goes first."""
    return int("".join(map("".join, zip(*(format(coordinate, f"0{BITS}b") for coordinate in point)))), 2)


def last_address(dims):
    """The greatest address of so many dimensions."""
    return 2 ** (BITS * dims) - 1


class Region:
    """A region: its first key, and its rows, each behind its key, in the order of their keys."""

    def __init__(self, first, rows):
        self.first, self.rows = first, rows


def no_regions():
    """The regions of a table with no rows: one, of all keys."""
    return [Region(ORIGIN, [])]


def place_of(regions, key):
    """The place of the region that holds a key: the last one that doesn't begin after it."""
    return bisect.bisect_right(regions, key, key=lambda region: region.first) - 1


def insert(regions, page_rows, key, row):
    """Puts a row into its region, of which two are made where it has more rows than a page holds."""
    place = place_of(regions, key)
    region = regions[place]
    region.rows = sorted(region.rows + [(key, row)])
    if len(region.rows) > page_rows:
        left, right = halves(region.rows, page_rows)
        region.rows = left
        regions.insert(place + 1, Region(separator(left[-1][0], right[0][0]), right))


def halves(rows, page_rows):
    """The two parts of the rows that are one more than a page holds."""
    cut = (page_rows + 2) // 2
    return rows[:cut], rows[cut:]


def separator(left, right):
    """The first key of a region whose least key is `right`, where the region before has `left` as its greatest: the address alone parts
    them, if they have different ones."""
    return (right[0], 0) if left[0] < right[0] else right


def remove(regions, page_rows, key):
    """Takes the row of a key out of its region. Where less than half a page of rows is left there, the region is joined with the next one,
    or else with the one before, where the rows of both fit on one page."""
    place = place_of(regions, key)
    region = regions[place]
    left = [entry for entry in region.rows if entry[0] != key]
    assert len(left) + 1 == len(region.rows)
    region.rows = left
    if len(left) >= page_rows // 2:
        return
    for low in (place, place - 1):
        if fits_next(regions, page_rows, low):
            regions[low].rows += regions.pop(low + 1).rows
            return


def fits_next(regions, page_rows, place):
    """Whether there are a region at this place and a next one, and the rows of both fit on one page."""
    return 0 <= place < len(regions) - 1 and len(regions[place].rows) + len(regions[place + 1].rows) <= page_rows


def spans(regions, dims):
    """The first and the last address of each region's span: an address that the first key of the next region parts lies in both."""
    for region, after in zip(regions, regions[1:] + [None]):
        yield region.first[0], span_end(after and after.first, dims)


def span_end(after, dims):
    """The greatest address of a key before this first key, or of all keys, where it is None."""
    if after is None:
        return last_address(dims)
    z, number = after
    return z - 1 if number == 0 else z


# ---- Sweeps


def met(box, start, end, dim, down):
    """The first coordinate, along the sweep, of a point of the box in the span from `start` to `end`; None where there is no such point. It
    is found by halving the whole space: the points of each part are those whose addresses begin with the same bits."""
    best = None
    dims = len(box)
    # Each part: how many bits its addresses begin with, these bits, and the bounds of its points.
    parts = [(0, 0, ((0, GREATEST),) * dims)]
    while parts:
        depth, prefix, cell = parts.pop()
        if any(high < least or greatest < low for (low, high), (least, greatest) in zip(cell, box)):
            continue
        free = BITS * dims - depth
        lowest, highest = prefix << free, ((prefix + 1) << free) - 1
        if highest < start or end < lowest:
            continue
        reached = min(cell[dim][1], box[dim][1]) if down else max(cell[dim][0], box[dim][0])
        if best is not None and (reached <= best if down else best <= reached):
            continue
        if start <= lowest and highest <= end:
            best = reached
            continue
        turn = depth % dims
        low, high = cell[turn]
        middle = (low + high + 1) // 2
        for bit, half in enumerate(((low, middle - 1), (middle, high))):
            parts.append((depth + 1, prefix << 1 | bit, cell[:turn] + (half,) + cell[turn + 1 :]))
    return best


def event_values(regions, dims, boxes, dim, down):
    """The event value of each region that meets one of the boxes: the coordinate at which a sweep along the dimension comes to it."""
    for start, end in spans(regions, dims):
        values = [value for box in boxes if (value := met(box, start, end, dim, down)) is not None]
        if values:
            yield max(values) if down else min(values)


def met_by(regions, dims, boxes):
    """How many regions meet one of the boxes."""
    return len(list(event_values(regions, dims, boxes, 0, False)))


def pages_read(met_values, down, limit, given):
    """How many of the regions with these event values a sweep reads that gives entries with these coordinates, at most `limit` of them."""
    if limit == 0:
        return 0
    if limit is not None and len(given) == limit:
        return sum(value >= given[-1] if down else value <= given[-1] for value in met_values)
    return len(met_values)


# ---- Tables


class Shape:
    """How many dimensions and measures a table has, which dimensions are signed (a bit of the mask for each), how many rows a page holds,
    and the names of the columns. A column is a number, the dimensions' first."""

    def __init__(self, dims, measures, mask, page_rows):
        self.dims, self.measures, self.mask, self.page_rows = dims, measures, mask, page_rows
        self.names = "xyzw"[:dims] + "mn"[:measures]

    def is_signed(self, dim):
        return self.mask >> dim & 1 == 1

    def least(self, column):
        """The least value that a column can have."""
        if column >= self.dims:
            return -(2**63)
        return -HALF if self.is_signed(column) else 0

    def greatest(self, column):
        """The greatest value that a column can have."""
        if column >= self.dims:
            return 2**63 - 1
        return HALF - 1 if self.is_signed(column) else GREATEST

    def coordinate(self, dim, value):
        """The coordinate of a value of a dimension."""
        return value + HALF if self.is_signed(dim) else value

    def point(self, row):
        """The coordinates of a row of values."""
        return tuple(self.coordinate(dim, row[dim]) for dim in range(self.dims))

    def words(self):
        """The words of a command line that makes such a table."""
        return f"--dims {self.dims} --page-rows {self.page_rows}" + (f" --signed {self.mask}" if self.mask else "")

    def text(self, rows):
        """The CSV text of rows."""
        return "".join(line + "\n" for line in [",".join(self.names)] + [",".join(map(str, row)) for row in rows])


class Table:
    """The rows of a table by their numbers, and its regions."""

    def __init__(self, shape, rows):
        self.shape, self.rows, self.next = shape, {}, 1
        self.regions = no_regions()
        for row in rows:
            self.insert(row)

    def key(self, number):
        """The key of the row of this number."""
        return address(self.shape.point(self.rows[number])), number

    def put(self, number):
        """Puts the row of this number into its region."""
        insert(self.regions, self.shape.page_rows, self.key(number), self.rows[number])

    def insert(self, row):
        """Gives a row the next number, which is returned, and puts it in."""
        number = self.next
        self.next += 1
        self.rows[number] = row
        self.put(number)
        return number

    def append(self, rows):
        """Gives rows the next numbers in their order, and puts them in in the order of their keys."""
        numbers = range(self.next, self.next + len(rows))
        self.next += len(rows)
        self.rows.update(zip(numbers, rows))
        for number in sorted(numbers, key=self.key):
            self.put(number)

    def delete(self, is_doomed):
        """Takes out the rows of which this holds, in the order of their numbers, and gives how many."""
        numbers = sorted(number for number, row in self.rows.items() if is_doomed(row))
        for number in numbers:
            remove(self.regions, self.shape.page_rows, self.key(number))
            del self.rows[number]
        return len(numbers)

    def in_order(self):
        """The rows in the order of their numbers."""
        return [row for _, row in sorted(self.rows.items())]

    def text(self):
        """The CSV text of the rows."""
        return self.shape.text(self.in_order())

    def told_whole(self):
        """The lines of `SELECT *` of it."""
        return self.text().splitlines() + [f"-- rows {len(self.rows)}, pages {len(self.regions)}"]

    def told_loaded(self):
        """The line of loading it."""
        return f"-- rows {len(self.rows)}, regions {len(self.regions)}\n"
