#!/usr/bin/env python3
"""examples/python/beside.py, or the module cvec.cut, reads a file while the program writes it by random commands. Each look is
compared with what the writer had said: it is the vector at a moment from the last answer before the look to the last command begun
before its end. Most commands write piece by piece, so that looks meet each part of a frame.

mapped.py PROGRAM CALLS FOLDER COMMANDS [SEED [cut]]: it looks until there were so many commands

CALLS is the library of tests/calls.c."""
import os
import random
import subprocess
import sys
import threading

TOP = os.path.join(os.path.dirname(os.path.abspath(__file__)), "..")
sys.path[:0] = [os.path.join(TOP, "examples", "python"), os.path.join(TOP, "bindings", "python")]
import beside

PROGRAM, CALLS, FOLDER = map(os.path.abspath, sys.argv[1:4])
COMMANDS = int(sys.argv[4])
SEED = int(sys.argv[5]) if len(sys.argv) > 5 else 1
IS_CUT = sys.argv[6:] == ["cut"]
FILE = os.path.join(FOLDER, "t.cv")
LONGEST = 1_000
PARTS = 7, 60, 500, None


def command(*words, text="", part=None):
    known = {**os.environ, "LD_PRELOAD": CALLS, "CALLS_PART": str(part)} if part else None
    subprocess.run([PROGRAM, words[0], "u64", FILE, *words[1:]], input=text, stdout=subprocess.DEVNULL, text=True, check=True,
                   env=known)


class Writer(threading.Thread):
    """Runs commands of one frame each. `moments` has the vector behind each command that was begun, and `answered` is the
    number of those that have answered."""

    def __init__(self, pick):
        super().__init__(daemon=True)
        self.pick, self.moments, self.answered, self.count, self.has_failed = pick, [[]], 0, 0, True

    def run(self):
        while self.count < COMMANDS:
            self.pick.choices([self.append, self.append_growths, self.set, self.resize], [4, 1, 4, 1])[0](self.moments[-1])
        self.has_failed = False

    def do(self, after, *words, text=""):
        self.moments += after
        command(*words, text=text, part=self.pick.choice(PARTS))
        self.answered = len(self.moments) - 1
        self.count += 1

    def new(self, most):
        return [self.pick.randrange(2**64) for _ in range(self.pick.randint(1, most))]

    def append(self, now):
        new = self.new(self.pick.choice([1, 100]))
        if len(now) + len(new) <= LONGEST:
            self.do([now + new], "append", text=" ".join(map(str, new)) + "\n")

    def append_growths(self, now):
        """Many growths, each of one record. Those that are committed together are seen together."""
        new = self.new(30)
        if len(now) + len(new) <= LONGEST:
            self.do([now + new[:count] for count in range(1, len(new) + 1)], "append", text="".join(f"{it}\n" for it in new))

    def set(self, now):
        if now:
            start = self.pick.randrange(len(now))
            new = self.new(50)[:len(now) - start]
            self.do([now[:start] + new + now[start + len(new):]], "set", str(start), f"--records={','.join(map(str, new))}")

    def resize(self, now):
        length = self.pick.randint(0, len(now))
        self.do([now], "fold")
        self.do([now[:length]], "resize", str(length), "--record=0")


class Cuts:
    """Looks by cuts, each taken on from the one before. Records that are changed before they are read have it look again: what it
    answers is of the last of these looks."""

    def __init__(self):
        import cvec
        self.module, self.cut, self.form = cvec.cut, cvec.cut.take(FILE, "u64"), beside.struct.Struct("<Q")

    def look(self):
        while True:
            self.cut = self.module.refreshed(self.cut)
            try:
                self.records = self.module.read(self.cut).tobytes()
                return self.records
            except self.module.Moved:
                pass

def new_reader():
    return Cuts() if IS_CUT else beside.Reader(FILE, "u64")


def look(reader, writer):
    """One look, which must be one of the writer's moments. Answers whether a command ran meanwhile."""
    first, before = writer.answered, len(writer.moments) - 1
    reader.look()
    last = len(writer.moments) - 1
    seen = [record for record, in reader.form.iter_unpack(reader.records)]
    assert seen in writer.moments[first:last + 1], f"no moment from {first} to {last} has these {len(seen)} records"
    assert IS_CUT or list(reader.texts()) == list(map(str, seen))
    return first < before or first < last


def main():
    command("create", f"--format={SEED % 2 + 1}")
    writer = Writer(random.Random(SEED))
    reader = new_reader()
    writer.start()
    looks = while_written = 0
    while writer.is_alive():
        # A new reader every other time, which reads from the first frame on, also while the writer folds.
        other = new_reader() if looks % 2 else reader
        while_written += look(other, writer)
        looks += 1
    assert not writer.has_failed, "the writer failed"
    assert reader.look() == new_reader().look()
    look(reader, writer)
    print(f"{looks} looks, {while_written} of them while a command ran, {COMMANDS} commands")


main()
