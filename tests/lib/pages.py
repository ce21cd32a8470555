"""The pages of table files, spelled by docs/FORMATS.md and written apart from the program.

A key is an address and a row's number; an entry of an index or a directory a key and a page; a row its number, its coordinates and its measures.
"""
import struct

PAGE = 4096
# The most entries of a page of an index or of a directory, the most levels of an index, and the greatest number of a row.
ENTRIES = 170
LEVELS = 16
TOP_NUMBER = 2**24 - 1


def number_at(page, at, size=4):
    """The number that stands on so many bytes."""
    return int.from_bytes(page[at : at + size], "big")


def number_bytes(number):
    """A number on four bytes."""
    return number.to_bytes(4, "big")


def key_bytes(key):
    """A key."""
    address, number = key
    return address.to_bytes(16, "big") + number_bytes(number)


def key_at(page, at):
    """The key that stands there."""
    return number_at(page, at, 16), number_at(page, at + 16)


def entry_bytes(key, page):
    """An entry."""
    return key_bytes(key) + number_bytes(page)


def entries_on(page):
    """The entries of a page of an index or of a directory."""
    return [(key_at(page, at), number_at(page, at + 20)) for at in range(16, 16 + 24 * number_at(page, 2, 2), 24)]


def padded(data):
    """A page that begins with these bytes."""
    assert len(data) <= PAGE
    return data + bytes(PAGE - len(data))


def region_page(dims, measures, first, rows):
    """The page of a region."""
    page = bytes([0x52, dims, measures, len(rows)]) + key_bytes(first) + b"".join(number_bytes(number) for number, _, _ in rows)
    page += b"".join(number_bytes(point[dim]) for dim in range(dims) for _, point, _ in rows)
    return padded(page + b"".join(struct.pack(">q", values[i]) for i in range(measures) for _, _, values in rows))


def index_page(level, entries):
    """A page of an index."""
    return padded(struct.pack(">BBH12x", 0x49, level, len(entries)) + b"".join(entry_bytes(*it) for it in entries))


def directory_page(entries, after):
    """A page of a directory of format 1, and the page of the part that comes after it, or 0."""
    return padded(struct.pack(">BBHI8x", 0x44, 0, len(entries), after) + b"".join(entry_bytes(*it) for it in entries))


def header_page(version, dims, measures, page_rows, mask, numbers, names):
    """The header of a table of this format. The numbers are the next one of a row, how many rows and regions there are, the page that leads to
    them, and how many levels the index has, or pages the directory; the names are the table's and the columns'."""
    head = struct.pack(">4s6B2x5I", b"UBTR", version, 0, dims, measures, page_rows, mask, *numbers)
    return padded(head + b"".join(bytes([len(name)]) + name.ljust(32, b"\0") for name in names))
