#!/usr/bin/env python3
"""What the tables look at and make without the library, by the fuzzer's reader and writer:

other.py shown TYPE FILE           the records of a file, as `read` of a table tells them, or why there are none
other.py groups COUNT FILE         makes a file of so many groups of u64, of one record and of two by turns: 0, 1 2, 3, ..
other.py far FILE                  makes a file into one of 257 long groups of u64, all 0, with holes for the records
"""
import os
import struct
import sys

import reader
import writer


def shown(kind, path):
    with open(path, "rb") as file:
        status, text = reader.answers_of(file.read(), kind)[0]
    lines = text.decode().split()
    print(" ".join(lines) if status else " ".join([f"{len(lines)}:", *lines]))


def groups(count, path):
    first, parts = 0, [writer.header(1, 8)]
    for k in range(int(count)):
        parts.append(writer.group([writer.numbers(*range(first, first + 1 + k % 2))]))
        first += 1 + k % 2
    with open(path, "wb") as file:
        file.write(b"".join(parts) + b"\0")


def far(path):
    count = (2 ** 24 - 8) // 8
    with open(path, "r+b") as file:
        file.write(writer.header(2, 8))
        for _ in range(257):
            file.write(struct.pack("<BBIII", 1, 1, 8 + 8 * count, 1, count))
            file.seek(8 * count, os.SEEK_CUR)
        file.truncate(file.tell() + 1)


def main(word, *words):
    {"shown": shown, "groups": groups, "far": far}[word](*words)


main(*sys.argv[1:])
