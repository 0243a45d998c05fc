#!/usr/bin/env python3
"""Appends positions as records of u64, frame by frame, until it is killed, and goes on where it was: appends.py FILE SEED"""
import os
import random
import struct
import sys
import time

from pen import Pen, numbers


def opened(path):
    """A pen of a file that has Groups alone."""
    pen = Pen.__new__(Pen)
    pen.path, pen.version, pen.width, pen.file = path, 1, 8, os.open(path, os.O_RDWR)
    pen._begin()
    size = 0
    while os.pread(pen.file, 1, pen.gate) == b"\1":
        length, growths = struct.unpack("<II", os.pread(pen.file, 8, pen.gate + 2))
        size += (length - 4 - 4 * growths) // 8
        pen.gate += 6 + length
    return pen, size


def main(path, seed):
    pick = random.Random(int(seed))
    if not os.path.exists(path):
        Pen(path).close()
    pen, size = opened(path)
    while True:
        lengths = pick.choice([[1000], [1] * 50, [pick.randint(1, 3000)], [20000]])
        growths = []
        for length in lengths:
            growths.append(numbers(range(size, size + length)))
            size += length
        pen.grow(*growths)
        pen.records.clear()
        pen.homes.clear()
        time.sleep(0.02)


main(*sys.argv[1:])
