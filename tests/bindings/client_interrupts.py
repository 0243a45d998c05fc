"""Ctrl-C at each moment at which a seat of a server is ended or closed, and at which the block of a server ends: client_interrupts.py
PROGRAM FILE. No pipe is left once a seat is closed, and the server ends well. It prints how many records there are to be then."""
import itertools
import os
import sys

import cvec
from moments import is_interrupted

PROGRAM, FILE = sys.argv[1:]
SEATS = 3
servers = []


def opened():
    return sorted(os.listdir("/proc/self/fd"))


def is_left(leave, moment):
    """Whether Ctrl-C came as this left a server, of which each seat has grown."""
    server = cvec.Server(FILE, "u64", seats=SEATS, program=PROGRAM)
    servers.append(server)
    for number, seat in enumerate(server.seats):
        seat.grow([number])
    return is_interrupted(lambda: leave(server), moment)


def count_moments(leave, first, closes):
    """How many moments this has. From the first one that is tried on nothing but these calls are needed then."""
    before = opened()
    for moment in itertools.count(first):
        came = is_left(leave, moment)
        closes(servers[-1])
        assert opened() == before, moment
        assert servers[-1].wait() == 0
        if not came:
            return moment


def close_all(server):
    for seat in server.seats:
        seat.close()


assert count_moments(lambda it: it.seats[0].close(), 0, close_all) > 2
assert count_moments(lambda it: it.seats[0].end(), 0, close_all) > 10
# At the first three it hasn't begun yet.
assert count_moments(lambda it: it.__exit__(None, None, None), 3, lambda it: None) > 30
print(SEATS * len(servers))
