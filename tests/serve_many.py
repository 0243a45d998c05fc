#!/usr/bin/env python3
"""The requests of a server's client for many growths of one record, the growth's number, and then to wait and to end; and
whether it was answered so.

serve_many.py ask COUNT            writes the requests
serve_many.py check COUNT TAKEN    reads the answers: the first TAKEN growths were made, in order, and the others refused as full
"""
import struct
import sys

REQUEST = struct.Struct("<IIQ")
ANSWER = struct.Struct("<IIQQ")
END, GROW, AWAIT = range(3)
FULL = 9


def requests_of(count):
    for number in range(count):
        yield REQUEST.pack(GROW, 1, 0) + number.to_bytes(8, "little")
    yield REQUEST.pack(AWAIT, 0, 0)
    yield REQUEST.pack(END, 0, 0)


def answers_of(count, taken):
    for number in range(taken):
        yield ANSWER.pack(0, 0, number, number)
    yield ANSWER.pack(FULL, 0, 0, 0) * (count - taken)
    yield ANSWER.pack(0, 0, taken, 0)
    yield ANSWER.pack(0, 0, 0, 0)


if sys.argv[1:2] == ["ask"]:
    sys.stdout.buffer.writelines(requests_of(int(sys.argv[2])))
elif sys.stdin.buffer.read() != b"".join(answers_of(int(sys.argv[2]), int(sys.argv[3]))):
    sys.exit("other answers were told")
