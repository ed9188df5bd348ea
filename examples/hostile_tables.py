#!/usr/bin/env python3
"""Writes an ELF file whose relocation tables are dear to a reader that reads each section anew or keeps each entry.

    examples/hostile_tables.py KIND SECTIONS ENTRIES > hostile.elf

KIND is one of
    shared    SECTIONS relocation sections, all over one table of ENTRIES entries
    nested    the same, each table one entry shorter than the one before it
    growing   the same, each table one entry longer than the one before it
    symbols   the same table, but each section has a symbol table of its own (over the same bytes)
    stale     one table, whose entries lie over a data segment: each makes eight bytes stale
"""
import struct
import sys

TEXT, DATA = 0x10000, 0x200000
LOOP = 0x0000006F  # j .
JAL, ABSOLUTE_64 = 17, 2
HEADER, SEGMENT, SECTION = 52, 32, 40


def entries(kind, count, words):
    """The bytes of the table: an entry for each word in turn, or for each eight bytes of data."""
    if kind == "stale":
        return b"".join(struct.pack("<III", DATA + 8 * i, 256 + ABSOLUTE_64, TEXT) for i in range(count))
    places = [TEXT + 4 * (i % words) for i in range(count)]
    return b"".join(struct.pack("<III", at, 256 + JAL, at) for at in places)


def tables(kind, sections, count, at, symbols):
    """The headers of the relocation sections, and of their symbol tables where each has its own."""
    made = []
    for number in range(sections):
        left_out = {"nested": number, "growing": sections - 1 - number}.get(kind, 0)
        size = 12 * max(1, count - left_out)
        link = 2
        if kind == "symbols":
            link = 3 + len(made)
            made.append((0, 2, 0, 0, symbols, 32, 1, 1, 4, 16))
        made.append((0, 4, 0, 0, at, size, link, 1, 4, 12))
    return made


def main():
    if len(sys.argv) != 4 or sys.argv[1] not in ("shared", "nested", "growing", "symbols", "stale"):
        sys.exit(__doc__)
    kind, sections, count = sys.argv[1], int(sys.argv[2]), int(sys.argv[3])
    words = min(count, 1 << 18)
    table = entries(kind, count, words)
    data = bytes(8 * count) if kind == "stale" else b""
    text_at = HEADER + 2 * SEGMENT
    symbols_at = text_at + 4 * words
    table_at = symbols_at + 32
    data_at = table_at + len(table)
    headers = [
        (0,) * 10,
        (0, 1, 6, TEXT, text_at, 4 * words, 0, 0, 4, 0),
        (0, 2, 0, 0, symbols_at, 32, 1, 1, 4, 16),
        *tables(kind, sections, count, table_at, symbols_at),
    ]
    segments = struct.pack("<8I", 1, text_at, TEXT, TEXT, 4 * words, 4 * words, 5, 4)
    segments += struct.pack("<8I", 1, data_at, DATA, DATA, len(data), len(data), 6, 4)
    file = b"\x7fELF\1\1\1" + bytes(9)
    file += struct.pack("<HHIIIII", 2, 243, 1, TEXT, HEADER, data_at + len(data), 0)
    file += struct.pack("<6H", HEADER, SEGMENT, 2, SECTION, len(headers), 0)
    file += segments + struct.pack("<I", LOOP) * words + bytes(32) + table + data
    sys.stdout.buffer.write(file + b"".join(struct.pack("<10I", *header) for header in headers))


main()
