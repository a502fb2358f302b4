#!/usr/bin/env python3
"""Gives a module's table indices of 32 bits: small_table.py MODULE >OUT.wasm. The linker makes one table with indices of 64
bits, into which no code looks, and wasm-opt reads no such table."""
import pathlib
import sys

TABLES, WIDE = 4, 4
FIRST_SECTION = 8


def number(data, place):
    """A number of variable length at a place, and the place behind it."""
    value = shift = 0
    while True:
        byte = data[place]
        place += 1
        value |= (byte & 127) << shift
        shift += 7
        if byte < 128:
            return value, place


def main():
    data = bytearray(pathlib.Path(sys.argv[1]).read_bytes())
    place = FIRST_SECTION
    while place < len(data):
        section, (size, start) = data[place], number(data, place + 1)
        if section == TABLES:
            count, first = number(data, start)
            if count != 1:
                sys.exit(f"small_table.py: {count} tables, where there is to be one")
            # Behind the type of its entries come the flags of its limits.
            data[first + 1] &= ~WIDE
        place = start + size
    sys.stdout.buffer.write(data)


main()
