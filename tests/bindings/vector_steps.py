"""Kills a program that makes calls of a whole vector in place of each of its syncs, and looks whether the file has what the last
call that returned has left, or what the next one is to leave: vector_steps.py FILE LIBRARY WRITER.. LIBRARY is that of syncs.c.
WRITER FILE makes the calls below, and prints the number of each that is durable."""
import os
import subprocess
import sys

from vector_blocks import records_of

STEPS = [
    [],  # created
    [0, 1, 2, 3, 4, 5],  # grown by these, and settled
    [0, 21, 22, 3, 4, 5],  # changed from position 1 on
    [0, 21, 22, 3, 4, 5, 7, 7],  # resized to 8 by copies of 7
    [9, 8, 22, 3, 4, 5, 7, 7],  # changed from position 0 on
    [9, 8, 22, 3, 4, 5, 7, 7],  # folded
    [9, 8, 22],  # resized to 3
    [9, 8, 22, 30, 31],  # grown by two, which nobody settles or prints
    [],  # cleared
    [40],  # grown by one, and settled
]


def main(path, library, *command):
    killed = 0
    while True:
        environment = {**os.environ, "LD_PRELOAD": library, "KILL_AT": str(killed + 1)}
        if os.path.exists(path):
            os.remove(path)
        ended = subprocess.run([*command, path], env=environment, stdout=subprocess.PIPE, timeout=60)
        told = [int(it) for it in ended.stdout.split()]
        if ended.returncode == 0:
            break
        assert ended.returncode == -9, f"it ended by itself: {ended.returncode}"
        killed += 1
        if told:
            found, last = records_of(path), told[-1]
            following = 8 if last == 6 else last + 1
            assert found in STEPS[last:following + 1], f"killed in place of sync {killed}, behind step {last}: {found}"
    assert told == [0, 1, 2, 3, 4, 5, 6, 8, 9] and records_of(path) == STEPS[-1]
    # Eight calls take two syncs at least.
    assert killed >= 16, f"only {killed} syncs"
    print(f"killed {killed} times")


if __name__ == "__main__":
    main(*sys.argv[1:])
