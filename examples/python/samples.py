"""Eight sensors put samples into one file, until the program is killed: samples.py FILE. Begun again, each sensor goes on behind
the last of its samples that is there."""
import itertools
import math
import struct
import sys
from array import array
from concurrent.futures import ThreadPoolExecutor

from cvec import Vector

SENSORS = 8
# A sensor, a number and a value: three records of u64.
SAMPLE = struct.Struct("=QQd")


def measure(vector, sensor, first):
    """A hundred samples are one growth. Once settle returns, no stop of the process or of the system takes them."""
    for begin in itertools.count(first, 100):
        samples = [SAMPLE.pack(sensor, number, math.sin(number)) for number in range(begin, begin + 100)]
        vector.settle(vector.grow(array("Q", b"".join(samples))))


def main(path):
    with Vector.open_or_create(path) as vector:
        following = [0] * SENSORS
        for sensor, number, _ in SAMPLE.iter_unpack(vector[:].tobytes()):
            following[sensor] = number + 1
        print(f"found {len(vector) // 3} samples:", *following, flush=True)
        with ThreadPoolExecutor(SENSORS) as threads:
            for job in [threads.submit(measure, vector, *it) for it in enumerate(following)]:
                job.result()


main(*sys.argv[1:])
