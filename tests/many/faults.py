#!/usr/bin/env python3
"""Writers append on each host while they and the workers are killed, and files are compacted. Each look is exact: faults.py FOLDER PROGRAM
SECONDS [SEED]

Record number k of each file is k, so the length of a cut says what an answer over it has to be. One writer is `append` of the program,
the other is appends.py. The last line has the counts."""
import os
import random
import signal
import subprocess
import sys
import time

TOP = os.path.join(os.path.dirname(os.path.abspath(__file__)), "..", "..")
sys.path.insert(0, os.path.join(TOP, "bindings", "python"))
import numpy

import cvec
from cluster import HERE, Cluster, wait_until
from pen import Pen

FOLDER, PROGRAM = map(os.path.abspath, sys.argv[1:3])
SECONDS, SEED = float(sys.argv[3]), int(sys.argv[4]) if len(sys.argv) > 4 else 1
MODULUS = 1009


class Writer:
    """What appends to one file, in a process of its own."""

    def __init__(self, path, words):
        self.path, self.words, self.kills = path, words, 0
        self.start()

    def start(self):
        self.child = subprocess.Popen(self.words, stdin=subprocess.DEVNULL, stdout=subprocess.DEVNULL, stderr=subprocess.DEVNULL,
                                      start_new_session=True, env={**os.environ, "PYTHONPATH": HERE})

    def kill(self):
        os.killpg(self.child.pid, signal.SIGKILL)
        self.child.wait()
        self.kills += 1


def by_program(path):
    """Behind what there is, as an append that is killed leaves it. Numbers come slowly enough for a small disk."""
    text = f"""[ -e "$1" ] || "$0" create u64 "$1"
        size=$("$0" check u64 "$1" --wait=20 | sed 's/.* size \\([0-9]*\\) .*/\\1/')
        while :; do seq "$size" $((size + 4999)); size=$((size + 5000)); sleep 0.03; done |
            exec "$0" append u64 "$1" --block=100 --wait=20"""
    return Writer(path, ["sh", "-c", text, PROGRAM, path])


def by_pen(path):
    return Writer(path, [sys.executable, os.path.join(HERE, "appends.py"), path, str(SEED)])


def compact(path):
    """Another file with the same records takes the name."""
    cut, pen = cvec.cut.take(path, "u64"), Pen(f"{path}.copy")
    for _, block in cvec.cut.blocks(cut):
        data = block.tobytes()
        pen.grow([data[it:it + 8] for it in range(0, len(data), 8)])
        pen.records.clear()
        pen.homes.clear()
    pen.close()
    os.rename(pen.path, path)


# ---- what is asked, and what has to be answered

def each(block, first):
    is_right = numpy.array_equal(block, numpy.arange(first, first + len(block), dtype="u8"))
    return is_right, len(block), int(numpy.count_nonzero(block % MODULUS == 50))


def join(parts):
    return all(it for it, _, _ in parts), sum(it for _, it, _ in parts), sum(it for _, _, it in parts)


def wanted(lengths):
    return True, sum(lengths), sum((length + MODULUS - 51) // MODULUS for length in lengths)


class Looks:
    def __init__(self, client, addresses):
        self.shards = cvec.dask.find(client, "*.cv", "u64", addresses, chunk=1 << 16, patience=30)
        self.standing = self.shards.standing(each, join)
        self.count, self.reread, self.longest, self.before = 0, 0, 0.0, {}

    def look(self):
        begun = time.monotonic()
        got = self.standing.value()
        self.check(got)
        if self.count % 5 == 0:
            self.check(self.shards.refresh().reduce(each, join))
        self.count, self.longest = self.count + 1, max(self.longest, time.monotonic() - begun)

    def check(self, got):
        lengths = {name: len(it) for name, it in self.shards.cuts.items()}
        assert len(lengths) == 2 and got == wanted(lengths.values()), f"{got}, not {wanted(lengths.values())} of {lengths}"
        for name, length in lengths.items():
            assert length >= self.before.get(name, 0), f"{name} was longer before"
        self.before, self.reread = lengths, self.reread + len(self.shards.reread)


def disturb(kind, pick, cluster, client, writers, kills):
    """Does this to something, while looks go on."""
    kills[kind] += 1
    if kind == "worker":
        os.kill(cluster.worker_process(client, pick.randrange(2)), signal.SIGKILL)
        return
    writer = pick.choice(writers)
    writer.kill()
    if kind == "compaction":
        compact(writer.path)
    writer.start()


def main():
    pick, kills = random.Random(SEED), {"worker": 0, "writer": 0, "compaction": 0}
    with Cluster(os.path.join(FOLDER, "cluster")) as cluster:
        writers = [way(os.path.join(folder, "a.cv")) for way, folder in zip((by_program, by_pen), cluster.folders)]
        try:
            with cluster.client() as client:
                wait_until(lambda: all(os.path.exists(it.path) and os.path.getsize(it.path) > 1000 for it in writers), "records")
                looks, until, kinds = Looks(client, cluster.addresses), time.monotonic() + SECONDS, list(kills) * 1000
                event = time.monotonic() + 1
                while time.monotonic() < until or not all(kills.values()):
                    looks.look()
                    if time.monotonic() > event:
                        disturb(kinds.pop(0), pick, cluster, client, writers, kills)
                        event = time.monotonic() + 2
                looks.look()
        finally:
            for writer in writers:
                writer.kill()
    print(f"{looks.count} looks, each exact; {sum(looks.before.values()):,} records; workers killed {kills['worker']}, writers killed "
          f"{kills['writer']}, compacted {kills['compaction']}; read again {looks.reread}; longest look {looks.longest:.1f} s; "
          f"read by the standing answer {looks.standing.read:,}")


main()
