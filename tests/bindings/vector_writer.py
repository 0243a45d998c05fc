"""Grows a vector by threads until it is killed, and prints of each growth that is settled its thread, its turn and its place:
vector_writer.py FILE ROUND THREADS TURNS"""
import os
import sys
import threading

from cvec import Error, Status, Vector
from vector_blocks import block


def run(vector, round, name, turns):
    """Every third growth is waited for, and each that is settled then is told."""
    untold = []
    for turn in range(turns):
        receipt = vector.grow(block(round, name, turn))
        untold.append(f"{name} {turn} {receipt.start}\n")
        if turn % 3 == 2 or turn + 1 == turns:
            vector.settle(receipt)
            os.write(1, "".join(untold).encode())
            untold.clear()


def main(path, round, threads, turns):
    try:
        vector = Vector.create(path, seats=threads)
    except Error as refusal:
        if refusal.status != Status.EXISTS:
            raise
        vector = Vector.open(path, seats=threads)
    with vector:
        running = [threading.Thread(target=run, args=(vector, round, name, turns)) for name in range(threads)]
        for thread in running:
            thread.start()
        for thread in running:
            thread.join()


main(sys.argv[1], *map(int, sys.argv[2:]))
