#!/usr/bin/env python3
"""Readers by the library for C and by that for Python read a file while commands append to it, set, fold and cut it, one after
another, by writes of a few bytes. One reader reads so slowly that commands end meanwhile. Each
look is the vector of a moment between its beginning and its end: what the last command
that had answered before made of the file, or one that was begun before the look's end.

looks.py PROGRAM CALLS READER FOLDER LOOKS [SEED]

CALLS is the library of tests/calls.c, READER the program of tests/bindings/looks.c. It looks on until each reader has looked
so often, the slow one a hundredth of that, and a tenth of all looks met a command that wrote."""
import os
import random
import subprocess
import sys
import threading

sys.path.insert(0, os.path.join(os.path.dirname(os.path.abspath(__file__)), "..", "bindings", "python"))
import cvec

PROGRAM, CALLS, READER, FOLDER = map(os.path.abspath, sys.argv[1:5])
LOOKS = int(sys.argv[5])
SEED = int(sys.argv[6]) if len(sys.argv) > 6 else 1
FILE = os.path.join(FOLDER, "looks.cv")
LONGEST = 3_000
PARTS = 1, 7, 60, 500


class Writer(threading.Thread):
    """`moments` has the vector behind each command that was begun, and `answered` is the number of those that have answered."""

    def __init__(self):
        super().__init__(daemon=True)
        self.pick, self.moments, self.answered, self.goes_on, self.fault = random.Random(SEED), [[]], 0, True, None

    def run(self):
        try:
            while self.goes_on:
                self.pick.choices([self.append, self.set, self.fold, self.cut], [5, 5, 2, 1])[0](self.moments[-1])
        except Exception as fault:
            self.fault = fault

    def do(self, after, *words, text=""):
        self.moments += after
        known = {**os.environ, "LD_PRELOAD": CALLS, "CALLS_PART": str(self.pick.choice(PARTS))}
        subprocess.run([PROGRAM, words[0], "u64", FILE, *words[1:], "--wait"], input=text, stdout=subprocess.DEVNULL, text=True,
                       check=True, env=known)
        self.check_rest()
        self.answered = len(self.moments) - 1

    def check_rest(self):
        """Where nobody writes a reader and an opener answer the same."""
        with cvec.File.open(FILE, "u64") as opened, cvec.File.open_to_read(FILE, "u64") as seen:
            assert bytes(opened.stat) == bytes(seen.stat), "they tell other things of the file"
            assert list(opened.read()) == list(seen.read()) == self.moments[-1], "they read other records"

    def new(self, most):
        return [self.pick.randrange(2**64) for _ in range(self.pick.randint(1, most))]

    def append(self, now):
        new = self.new(self.pick.choice([1, 300]))
        if len(now) + len(new) <= LONGEST:
            self.do([now + new], "append", text=" ".join(map(str, new)) + "\n")

    def set(self, now):
        if now:
            start = self.pick.randrange(len(now))
            new = self.new(200)[:len(now) - start]
            self.do([now[:start] + new + now[start + len(new):]], "set", str(start), f"--records={','.join(map(str, new))}")

    def fold(self, now):
        self.do([now], "fold")

    def cut(self, now):
        length = self.pick.randint(0, len(now))
        self.fold(now)
        self.do([now[:length]], "resize", str(length), "--record=0")


class Reader(threading.Thread):
    """Looks until it has done so often enough; `look` answers the records."""

    def __init__(self, name, looks, look, writer):
        super().__init__(daemon=True)
        self.name, self.looks, self.look, self.writer = name, looks, look, writer
        self.count, self.beside, self.fault = 0, 0, None

    def run(self):
        try:
            while self.count < self.looks or self.beside * 10 < self.count:
                self.look_once()
        except Exception as fault:
            self.fault = fault

    def look_once(self):
        writer = self.writer
        first, before = writer.answered, len(writer.moments) - 1
        seen = self.look(self.count)
        last = len(writer.moments) - 1
        if seen not in writer.moments[first:last + 1]:
            raise AssertionError(f"{self.name}: look {self.count} has {len(seen)} records, of no moment from {first} to {last}")
        self.count += 1
        self.beside += first < before or first < last


def by_c(**meddled):
    known = {**os.environ, "LD_PRELOAD": CALLS, **meddled} if meddled else None
    reader = subprocess.Popen([READER, FILE], stdin=subprocess.PIPE, stdout=subprocess.PIPE, text=True, env=known)

    def look(number):
        reader.stdin.write("o\n" if number % 2 else "r\n")
        reader.stdin.flush()
        line = reader.stdout.readline()
        if not line.endswith("\n") or line.startswith("refused"):
            raise AssertionError(f"it answered {line!r}")
        return list(map(int, line.split()))
    return look


def by_python():
    file = cvec.File.open_to_read(FILE, "u64")

    def look(number):
        if number % 2:
            return list(map(int, file.read()))
        with cvec.File.open_to_read(FILE, "u64") as other:
            return list(map(int, other.read()))
    return look


def main():
    subprocess.run([PROGRAM, "create", "u64", FILE, f"--format={SEED % 2 + 1}"], stdout=subprocess.DEVNULL, check=True)
    writer = Writer()
    readers = [Reader("C", LOOKS, by_c(), writer), Reader("Python", LOOKS, by_python(), writer),
               Reader("C slowly", LOOKS // 100, by_c(CALLS_PART="4000", CALLS_WAIT="2000"), writer)]
    for thread in (writer, *readers):
        thread.start()
    while any(it.is_alive() for it in readers) and not any(it.fault for it in (writer, *readers)):
        for it in readers:
            it.join(0.1)
    writer.goes_on = False
    writer.join()
    faults = [it.fault for it in (writer, *readers) if it.fault]
    for fault in faults:
        print(fault)
    print(", ".join(f"{it.count} looks by {it.name}, {it.beside} of them beside a command that wrote" for it in readers)
          + f", {writer.answered} vectors")
    sys.exit(bool(faults))


main()
