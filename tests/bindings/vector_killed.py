"""Kills a writer of a vector at any moment, round by round, and looks whether the file has each growth that was told to be
settled, in its place, and nothing but whole blocks: vector_killed.py FILE ROUNDS WRITER.. It runs WRITER FILE ROUND THREADS
TURNS."""
import random
import subprocess
import sys
import time

from vector_blocks import places_of, records_of

THREADS, MANY = 8, 10 ** 6


def run(command, path, round, turns, lines):
    """What a writer tells until it has told so many lines, and some time more; and how it ended."""
    writer = subprocess.Popen([*command, path, str(round), str(THREADS), str(turns)], stdout=subprocess.PIPE)
    told = [writer.stdout.readline() for _ in range(lines)]
    if turns == MANY:
        time.sleep(random.random() / 50)
        writer.kill()
    told += writer.stdout.readlines()
    # Lines of a write that a kill has cut are no answer.
    return {(round, *map(int, it.split()[:2])): int(it.split()[2]) for it in told if it.endswith(b"\n")}, writer.wait()


def main(path, rounds, *command):
    seed = random.randrange(2 ** 32)
    random.seed(seed)
    print(f"seed {seed}")
    told = {}
    for round in range(int(rounds)):
        new, status = run(command, path, round, MANY, 1 + random.randrange(200))
        assert status == -9, f"the writer ended by itself: {status}"
        told.update(new)
        places = places_of(records_of(path))
        lost = {key: at for key, at in told.items() if places.get(key) != at}
        assert not lost, f"round {round}: settled, and not there: {sorted(lost)[:5]}"
    new, status = run(command, path, int(rounds), 20, 1)
    told.update(new)
    places = places_of(records_of(path))
    assert status == 0 and len(new) == 20 * THREADS and told.items() <= places.items()
    print(f"{len(told)} settled growths of {len(places)} were told, and are there")


main(*sys.argv[1:])
