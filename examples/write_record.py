#!/usr/bin/env python3
"""Writes the record of examples/small.board to standard output, with nothing but docs/RECORD.md to go by."""
import struct
import sys


def yes(number):
    return struct.pack(">BH", 0, number)


def no(number):
    return struct.pack(">BH", 1, number)


def at_most(terms, constant):
    """A comparison: terms are pairs of a coefficient and a variable counted from 0."""
    return struct.pack(">BB", 2, len(terms)) + b"".join(struct.pack(">bH", *term) for term in terms) + struct.pack(">i", constant)


def record(bounds, booleans, clauses):
    body = struct.pack(">HHH", len(bounds), booleans, len(clauses))
    body += b"".join(struct.pack(">hh", lower, upper) for lower, upper in bounds)
    body += b"".join(bytes([len(literals)]) + b"".join(literals) for literals in clauses)
    return struct.pack(">BI", 1, len(body)) + body


if __name__ == "__main__":
    sys.stdout.buffer.write(record([(-1, 1), (0, 2)], 1, [
        [at_most([(1, 0), (-1, 1)], -2)],
        [no(1), at_most([(-2, 0)], -1)],
        [yes(1), at_most([(1, 1)], 1)],
    ]))
