#!/usr/bin/env python3
"""Commands read a file while others append, set, fold, cut and clear, one after another. Each look answers what the vector
was at some moment between the look's beginning and its end: what the last command that had answered before made of it, or
what one made that began before the look's end. The writing commands make calls of the system that do a part of what they
are asked, so that looks meet each part of a commit.

beside.py PROGRAM CALLS FOLDER [LOOKS]

CALLS is the library of tests/calls.c. The last line is 'N passed, N failed'.
"""
import json
import os
import random
import subprocess
import sys
import threading
import time

PROGRAM, CALLS, FOLDER = sys.argv[1:4]
LOOKS = int(sys.argv[4]) if len(sys.argv) > 4 else 150
READERS, LONGEST = 3, 400
PATH = os.path.join(FOLDER, "beside.cv")
PARTS = 1, 3, 9, 60


class History:
    """The vectors that commands have made, in order. The first `acked` commands have answered; the last one may not have
    begun to write yet."""

    def __init__(self):
        self.vectors, self.acked = [[]], 0

    def between(self, before):
        return self.vectors[before:]


HISTORY = History()
FAULTS = []
OVERLAPPED = []


def call(words, records=(), part=None):
    env = dict(os.environ)
    if part is not None:
        env.update(LD_PRELOAD=CALLS, CALLS_PART=str(part))
    text = "".join(f"{it}\n" for it in records)
    return subprocess.run([PROGRAM, *words], input=text, capture_output=True, text=True, env=env, timeout=100)


def write(words, vector, records=()):
    """Runs a command that makes this vector."""
    HISTORY.vectors.append(vector)
    answer = call(words, records, random.choice(PARTS))
    if answer.returncode != 0:
        FAULTS.append(f"{words}: {answer.stdout} {answer.stderr}")
    HISTORY.acked = len(HISTORY.vectors) - 1


def some_records():
    return [random.randrange(50) for _ in range(random.randint(1, 40))]


def write_once():
    """Runs a command that is chosen by lot, and one that it needs."""
    vector, kind = HISTORY.vectors[-1], random.randrange(10)
    if kind < 4 and len(vector) < LONGEST or not vector:
        more = some_records()
        block = f"--block={random.randint(1, 9)}"
        # All lines of one growth are there or none, so the vectors of each front of growths are made too.
        size = int(block.split("=")[1])
        for end in range(size, len(more), size):
            HISTORY.vectors.append(vector + more[:end])
        write(["append", "u64", PATH, block, "--wait"], vector + more, more)
    elif kind < 7:
        start = random.randrange(len(vector))
        records = some_records()[:len(vector) - start]
        changed = vector[:start] + records + vector[start + len(records):]
        write(["set", "u64", PATH, str(start), "--records", ",".join(map(str, records)), "--wait"], changed)
    elif kind < 8:
        write(["fold", "u64", PATH, "--wait"], vector)
    elif kind < 9:
        write(["fold", "u64", PATH, "--wait"], vector)
        size = random.randint(0, len(vector) + 9)
        write(["resize", "u64", PATH, str(size), "--record=7", "--wait"], (vector + [7] * 9)[:size])
    else:
        write(["fold", "u64", PATH, "--wait"], vector)
        write(["clear", "u64", PATH, "--wait"], [])


def copy_of(lines):
    """What lines of events make of an empty vector; they end with that of a place, if there are any."""
    vector = []
    for line in lines:
        kind, *words = line.split()
        if kind == "+":
            vector.append(int(words[0]))
        elif kind == "=":
            vector[int(words[0])] = int(words[1])
        elif kind == "<":
            del vector[int(words[0]):]
    assert not lines or lines[-1].startswith(". ")
    return vector


def look():
    """The words of a look that is chosen by lot, and whether an answer is that for a vector."""
    start, count, record = random.randrange(60), random.randrange(60), random.randrange(50)
    return random.choice([
        (["list", "u64", PATH], lambda out, vector: out == "".join(f"{it}\n" for it in vector)),
        (["list", "u64", PATH, f"--from={start}", f"--count={count}"],
         lambda out, vector: out == "".join(f"{it}\n" for it in vector[start:start + count])),
        (["follow", "u64", PATH, "--once", f"--from={start}"],
         lambda out, vector: out == "".join(f"{it}\n" for it in vector[start:])),
        (["follow", "u64", PATH, "--once", "--events"], lambda out, vector: copy_of(out.splitlines()) == vector),
        (["count", "u64", PATH, f"--record={record}"], lambda out, vector: out == f"{vector.count(record)}\n"),
        (["find", "u64", PATH, f"--record={record}"],
         lambda out, vector: out == (f"{vector.index(record)}\n" if record in vector else "none\n")),
        (["stat", PATH, "--json"], lambda out, vector: json.loads(out)["size"] == len(vector)),
        (["check", "u64", PATH], lambda out, vector: out.split()[:7] == f"ok version 1 width 8 size {len(vector)}".split()),
    ])


def read(looks):
    for _ in range(looks):
        words, fits = look()
        # The commands that write get the file only while no look shares it.
        time.sleep(random.random() * 0.05)
        before = HISTORY.acked
        answer = call(words)
        vectors = HISTORY.between(before)
        OVERLAPPED.append(len(vectors) > 1)
        if answer.returncode != 0 or answer.stderr or not any(fits(answer.stdout, it) for it in vectors):
            FAULTS.append(f"{words}: {answer.returncode} {answer.stdout[-300:]} {answer.stderr}")
            return


assert call(["create", "u64", PATH]).stdout == "created\n"
threads = [threading.Thread(target=read, args=(LOOKS // READERS,)) for _ in range(READERS)]
for thread in threads:
    thread.start()
while not FAULTS and any(thread.is_alive() for thread in threads):
    write_once()
for thread in threads:
    thread.join()
if sum(OVERLAPPED) * 10 < len(OVERLAPPED):
    FAULTS.append(f"only {sum(OVERLAPPED)} looks met a command that wrote")
for fault in FAULTS:
    print(fault)
print(f"{len(OVERLAPPED)} looks, {sum(OVERLAPPED)} of them beside a command that wrote, {HISTORY.acked} vectors")
print(f"{int(not FAULTS)} passed, {int(bool(FAULTS))} failed")
sys.exit(bool(FAULTS))
