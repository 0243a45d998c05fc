"""A pool of threads that finds how many steps each number takes to come to 1 (halved where it is even, else tripled and one
more): pool.py RESULTS COUNT. A job is some numbers, whose results are one growth: durable when the job is done. Begun again, it
does the numbers that aren't there."""
import sys
from concurrent.futures import ThreadPoolExecutor

from cvec import Vector

JOB = 20


def steps_of(number):
    steps = 0
    while number != 1:
        number, steps = number // 2 if number % 2 == 0 else 3 * number + 1, steps + 1
    return steps


def put(vector, numbers):
    vector.settle(vector.grow([it for number in numbers for it in (number, steps_of(number))]))


def main(path, count):
    with Vector.open_or_create(path) as vector:
        done = set(vector[::2])
        left = [it for it in range(1, int(count) + 1) if it not in done]
        print(f"found {len(done)} results", flush=True)
        with ThreadPoolExecutor(4) as pool:
            jobs = [pool.submit(put, vector, left[at:at + JOB]) for at in range(0, len(left), JOB)]
        for job in jobs:
            job.result()
        vector.settle()
        print(f"{len(vector) // 2} results, {sum(map(int, vector[1::2]))} steps in all")


main(*sys.argv[1:])
