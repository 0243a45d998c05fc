"""Makes the calls of a whole vector that vector_steps.py lists, and prints the number of each that is durable:
vector_steps_writer.py FILE"""
import os
import sys

sys.modules["numpy"] = None  # it begins so often
from cvec import Vector


def told(step):
    os.write(1, b"%d\n" % step)


with Vector.create(sys.argv[1]) as vector:
    told(0)
    vector.settle(vector.grow(range(6)))
    told(1)
    vector.change(1, [21, 22])
    told(2)
    vector.resize(8, 7)
    told(3)
    vector.change(0, [9, 8])
    told(4)
    vector.fold()
    told(5)
    vector.resize(3)
    told(6)
    vector.grow([30, 31])
    vector.clear()
    told(8)
    vector.settle(vector.grow([40]))
    told(9)
