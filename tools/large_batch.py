#!/usr/bin/env python3
"""Writes a batch file of exactly SIZE bytes with ROWS rows to standard output, to measure the reader on.

usage: python3 tools/large_batch.py ROWS SIZE        (docs/CHANGES.md has the figures for 900 65536 and 15000 1048576)

Nine columns: a text, two doubles, a list of doubles, a map from texts to doubles, and bytes, which fill the file up.
"""

import struct
import sys


def number(n):
    out = b""
    while n > 127:
        out += bytes([n % 128 + 128])
        n //= 128
    return out + bytes([n])


def text(s):
    return number(len(s)) + s


def field(i, name, code):
    return struct.pack("<i", i) + b"\x00" + text(name) + bytes([code])


def column(i, name, code, length, rest):
    bits = b"\xfe" + b"\xff" * ((length + 7) // 8 - 1)
    return text(name) + b"\x01" + text(b"%d" % i) + bytes([code]) + number(length) + b"\x01" + bits + rest


def offsets(n, step):
    return b"".join(struct.pack("<i", step * k) for k in range(n + 1))


def doubles(n):
    return b"".join(struct.pack("<d", 0.5 * k) for k in range(n))


def batch(rows, filling):
    fields = [field(1, b"name", 13), field(2, b"ra", 5), field(3, b"dec", 5), field(4, b"nights", 18) + field(5, b"element", 5)]
    fields += [field(6, b"bands", 19) + field(7, b"key", 13) + field(8, b"value", 5), field(9, b"raw", 16)]
    key = text(b"key") + b"\x01" + text(b"7") + b"\x0b" + number(rows) + b"\x00" + offsets(rows, 4) + number(4 * rows) + b"band" * rows
    value = text(b"value") + b"\x01" + text(b"8") + b"\x05" + number(rows) + b"\x00" + doubles(rows)
    columns = [
        column(1, b"name", 11, rows, offsets(rows, 8) + number(8 * rows) + b"starname" * rows),
        column(2, b"ra", 5, rows, doubles(rows)),
        column(3, b"dec", 5, rows, doubles(rows)),
        column(4, b"nights", 17, rows, offsets(rows, 1) + text(b"element") + b"\x01" + text(b"5") + b"\x05" + number(rows) + b"\x00" + doubles(rows)),
        column(6, b"bands", 20, rows, offsets(rows, 1) + key + value),
        column(9, b"raw", 14, rows, offsets(rows, 0) + number(filling) + b"r" * filling),
    ]
    return b"\x01" + number(rows) + number(len(fields)) + b"".join(fields) + number(len(columns)) + b"".join(columns)


def main(rows, size):
    filling = 0
    while len(batch(rows, filling)) < size:
        filling += size - len(batch(rows, filling))
        while len(batch(rows, filling)) > size:
            filling -= 1
    made = batch(rows, filling)
    if len(made) != size:
        sys.exit(f"{len(made)} bytes at the least")
    sys.stdout.buffer.write(made)


if __name__ == "__main__":
    main(int(sys.argv[1]), int(sys.argv[2]))
