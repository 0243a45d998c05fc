#!/usr/bin/env python3
"""A process keeps a copy of a vector by the events of `follow` (tests/keep.py), while other commands append, set, cut, clear
and fold. In each round one side is killed at some moment: the follower, who keeps the copy, or a command that writes. The
copy is one that the vector was, never an earlier one than that of the round before; and by its place the next follower goes
on behind it: after a last look it is the vector, record by record.

following.py PROGRAM FOLDER [ROUNDS]

The last line is 'N passed, N failed'.
"""
import os
import random
import subprocess
import sys
import time

PROGRAM, FOLDER = sys.argv[1:3]
ROUNDS = int(sys.argv[3]) if len(sys.argv) > 3 else 20
KEEP = os.path.join(os.path.dirname(os.path.abspath(__file__)), "keep.py")
PATH, COPY = os.path.join(FOLDER, "followed.cv"), os.path.join(FOLDER, "copy")


def answer_of(*words, text=""):
    return subprocess.run([PROGRAM, *words], input=text, capture_output=True, text=True, timeout=60)


def listed():
    return answer_of("list", "u64", PATH).stdout.split()


def kept():
    """The place and the records of the copy."""
    if not os.path.exists(COPY):
        return None, []
    place, *records = open(COPY).read().split()
    return place, records


def following(*more):
    """A follower behind the copy's place, and who keeps the copy."""
    place, _ = kept()
    words = [PROGRAM, "follow", "u64", PATH, "--events", *more, *([] if place is None else [f"--after={place}"])]
    follower = subprocess.Popen(words, stdout=subprocess.PIPE, stderr=subprocess.PIPE)
    keeper = subprocess.Popen([sys.executable, KEEP, COPY], stdin=follower.stdout, stderr=subprocess.PIPE)
    follower.stdout.close()
    return follower, keeper


def some_records():
    return [str(random.randrange(10 ** 6)) for _ in range(random.randint(1, 2000))]


def commands(vector):
    """Some words, their input, and the vectors that they make, each of the one before."""
    kind, records = random.randrange(9), some_records()
    if kind < 4 or not vector:
        block = random.randint(1, 500)
        ends = [*range(block, len(records), block), len(records)]
        yield ["append", "u64", PATH, f"--block={block}"], "\n".join(records) + "\n", [vector + records[:it] for it in ends]
    elif kind < 7:
        start = random.randrange(len(vector))
        records = records[:len(vector) - start]
        changed = vector[:start] + records + vector[start + len(records):]
        yield ["set", "u64", PATH, str(start), "--input"], "\n".join(records) + "\n", [changed]
    else:
        yield ["fold", "u64", PATH], "", [vector]
        size = random.choice([0, random.randrange(len(vector)), len(vector) + 5])
        yield ["resize", "u64", PATH, str(size), "--record=7"], "", [(vector + ["7"] * 5)[:size]]


class Round:
    def __init__(self):
        self.vectors = [listed()]

    def run(self, words, text, vectors, is_killed):
        """Runs a command; one that is killed may have made all of its vectors, or some."""
        self.vectors += vectors
        child = subprocess.Popen([PROGRAM, *words, "--wait"], stdin=subprocess.PIPE, stdout=subprocess.PIPE, text=True)
        if is_killed:
            child.stdin.write(text)
            child.stdin.close()
            time.sleep(random.random() * 0.03)
            child.kill()
            child.wait()
        else:
            child.communicate(text, timeout=60)
            assert child.returncode == 0, words

    def write(self, ends_killed):
        """A few commands; the last one may be killed."""
        for number in range(5):
            is_last = number == 4
            for words, text, vectors in commands(self.vectors[-1]):
                self.run(words, text, vectors, is_last and ends_killed)
                if is_last and ends_killed:
                    return


def fault_of_round():
    """Why the copy of a round isn't right, if it isn't."""
    now = Round()
    before = kept()[1]
    follower, keeper = following(f"--poll={random.choice([1, 5, 40])}")
    victim = random.choice(["follower", "keeper", "writer"])
    now.write(victim == "writer")
    time.sleep(random.random() * 0.05)
    if victim == "keeper":
        keeper.kill()
    else:
        follower.kill()
    keeper.wait(60)
    follower.kill()
    follower.wait(60)
    copy = kept()[1]
    if copy not in [before, *now.vectors]:
        return f"a kill of the {victim} left a copy that the vector never was"
    if victim != "keeper" and keeper.returncode != 0:
        return f"the keeper ended: {keeper.stderr.read()}"
    follower, keeper = following("--once")
    keeper.wait(60)
    follower.wait(60)
    if follower.returncode != 0 or keeper.returncode != 0:
        return f"the last look ended: {follower.stderr.read()} {keeper.stderr.read()}"
    copy, vector = kept()[1], listed()
    if copy != vector:
        return f"behind a kill of the {victim} the copy has {len(copy)} records, the vector {len(vector)}"
    return None


seed = random.randrange(2 ** 32)
random.seed(seed)
assert answer_of("create", "u64", PATH, "--format=2").stdout == "created\n"
fault = None
for number in range(ROUNDS):
    fault = fault_of_round()
    if fault is not None:
        print(f"round {number}, seed {seed}: {fault}")
        break
print(f"{int(fault is None)} passed, {int(fault is not None)} failed")
sys.exit(fault is not None)
