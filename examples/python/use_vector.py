"""Grows a vector by threads, settles, opens it again and reads it: use_vector.py FILE [THREADS [GROWTHS]]"""
import sys
import threading

from cvec import Vector


def run(vector, name, growths):
    """Grows by blocks of its own, and reads each back where its receipt says that it stands."""
    for turn in range(growths):
        block = [name, turn, name + turn]
        receipt = vector.grow(block)
        vector.settle(receipt)  # durable: one commit serves all threads that wait
        if list(vector[receipt.start:receipt.start + receipt.length]) != block:
            sys.exit("a block isn't whole")


def main(path, threads=4, growths=3):
    threads, growths = int(threads), int(growths)
    with Vector.create(path) as vector:
        running = [threading.Thread(target=run, args=(vector, name, growths)) for name in range(threads)]
        for thread in running:
            thread.start()
        for thread in running:
            thread.join()
        with vector.appender(capacity=100) as out:
            for number in range(250):
                out.push(number)
        vector.settle()
        print(f"{len(vector)} records of {vector.settled()} growths")
    with Vector.open(path) as vector:
        print(f"{len(vector)} records, the last {vector[-1]}, in all {sum(vector)}")


main(*sys.argv[1:])
