"""A client at a terminal, as waits.c: waits.py PROGRAM FILE [leaves]. The handler of a SIGINT waits for what was grown.

With `leaves` a SIGINT is the exception that ends a block of `with` while it grows. It writes how many growths were answered."""
import signal
import sys

import cvec

COUNT = 200


def tell(text):
    print(text, flush=True)


def settle(*_):
    try:
        tell(f"settled {seat.settle()}")
    except cvec.Gone as gone:
        tell(str(gone))
    seat.end()
    tell(f"ended {server.wait()}")
    sys.exit()


def grow_until_left(program, path):
    signal.signal(signal.SIGINT, signal.default_int_handler)
    grown = 0
    try:
        with cvec.Server(path, "u64", program=program) as server:
            while True:
                server.seats[0].grow([grown])
                grown += 1
                if grown == COUNT:
                    tell(f"grown {server.process.pid}")
    except KeyboardInterrupt:
        tell(f"answered {grown}")
        tell(f"ended {server.wait()}")


program, path, *how = sys.argv[1:]
if how == ["leaves"]:
    grow_until_left(program, path)
    sys.exit()
signal.signal(signal.SIGINT, settle)
server = cvec.Server(path, "u64", program=program)
seat = server.seats[0]
for record in range(COUNT):
    seat.grow([record])
tell(f"grown {server.process.pid}")
while True:
    signal.pause()
