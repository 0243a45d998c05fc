#!/usr/bin/env python3
"""rows.py FILE THREADS DURABLE: the rows of tests/cpp/threads.cc in a file, found by the reader of tests/fuzz, which shares
nothing with the program. Each is whole, and of each thread they are the first ones, each once and in order: as many as the
lines of DURABLE say at least. Prints how many rows there are; the status is 1 where something isn't so."""
import os
import re
import struct
import sys

sys.path.insert(0, os.path.join(os.path.dirname(os.path.abspath(__file__)), "..", "fuzz"))
from reader import File  # noqa: E402

FACTOR, MODULUS = 0x9E3779B97F4A7C15, 1 << 64


def main(path, threads, durable):
    with open(path, "rb") as file:
        rows = [struct.unpack("<3Q", cell) for cell in File(file.read(), "bytes24").cells]
    turns = [0] * int(threads)
    for at, (thread, turn, mixed) in enumerate(rows):
        if thread >= len(turns) or mixed != (thread * 1000003 + turn + 1) * FACTOR % MODULUS:
            sys.exit(f"row {at} is torn: {thread} {turn} {mixed}")
        if turn != turns[thread]:
            sys.exit(f"row {at} of thread {thread} has turn {turn}, after {turns[thread]} rows")
        turns[thread] += 1
    with open(durable) as lines:
        for thread, count in re.findall(r"(?m)^durable (\d+) (\d+) end$", lines.read()):
            if turns[int(thread)] < int(count):
                sys.exit(f"thread {thread} was told of {count} durable rows, and has {turns[int(thread)]}")
    print(len(rows))


main(*sys.argv[1:])
