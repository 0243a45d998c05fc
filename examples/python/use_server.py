"""Starts a server over a file of u64, and appends a block to it, durably: use_server.py PROGRAM FILE"""
import sys

import cvec

with cvec.Server(sys.argv[2], "u64", program=sys.argv[1]) as server:
    seat = server.seats[0]
    seat.grow([5, 7, 11])
    seat.settle()  # durable when it returns
    print(*seat.read())
