#!/usr/bin/env python3
"""Counts the instructions of a row's runs at a quarter of its size, at half of it and at the whole, for docs/tested.md: where
the last two differ by twice as much as the first two, the cost grows with the size alone. It needs valgrind, and gives the
same on any machine of a kind.
Usage: bench/growth.py ROW..   (rows of bench/measure.py; the program is that of `PROGRAM`, or is built first, as ./gammonfig
builds it)"""
import os
import sys
import tempfile

import instructions
import measure

PARTS = (4, 2, 1)


def main():
    rows = sys.argv[1:]
    unknown = [row for row in rows if row not in measure.ROWS or measure.words(row) != measure.RUN]
    if unknown or not rows:
        sys.exit(f"no such run: {' '.join(unknown)}")
    program = os.environ.get("PROGRAM") or measure.build()
    with tempfile.TemporaryDirectory() as room:
        for row in rows:
            counts = []
            for part in PARTS:
                path = os.path.join(room, f"{row}{part}")
                measure.write_input(row, part, program, path)
                counts.append(instructions.counted(program, path)[0] / 1e6)
            growth = (counts[2] - counts[1]) / (counts[1] - counts[0])
            print(f"{row:24} {counts[0]:9.1f} {counts[1]:9.1f} {counts[2]:9.1f} million instructions, growth {growth:.2f}", flush=True)


if __name__ == "__main__":
    main()
