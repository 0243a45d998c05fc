#!/usr/bin/env python3
"""Runs random scripts of commands on a file each, and compares every answer with that of a plain list.

commands.py PROGRAM FOLDER SCRIPTS
"""
import os
import random
import subprocess
import sys

program, folder, scripts = sys.argv[1], sys.argv[2], int(sys.argv[3])
path = os.path.join(folder, "s.cv")
other = os.path.join(folder, "u.cv")


def answer(words, lines=""):
    """What the program writes for these words, and its status."""
    run = subprocess.run([program, *words], input=lines.encode(), stdout=subprocess.PIPE, stderr=subprocess.DEVNULL)
    return run.stdout.decode(), run.returncode


LF = "\n"
# The most u64 records of a growth, by the version of its file.
MOST = {1: 131071, 2: 2097151}


class Model:
    """A plain list, and what a file adds to it."""

    def __init__(self, version):
        self.version, self.records, self.live = version, [], 0

    def grow(self, verb, told, pick):
        lines = [[pick.randrange(20) for _ in range(pick.randint(1, 4))] for _ in range(pick.randint(0, 4))]
        self.records += [record for line in lines for record in line]
        words = [verb, "u64", path]
        if verb == "load" and pick.random() < 0.3:
            # Many growers put their lines in any order, so they have one each.
            lines = lines[:1]
            words.append(f"--seats={pick.randint(1, 64)}")
        text = "".join(" ".join(map(str, line)) + "\n" for line in lines)
        return words, text, f"{told} {len(lines)} growths, size {len(self.records)}\n", 0

    def load(self, pick):
        before = list(self.records)
        words, text, _, _ = self.grow("load", "loaded", pick)
        grown = [int(record) for record in text.split()]
        self.records = before + grown
        count = text.count("\n")
        return words, text, f"loaded {count} growths, size {len(self.records)}\n", 0

    def append(self, pick):
        words, text, told, status = self.grow("append", "appended", pick)
        if pick.random() < 0.5:
            block, lines = pick.randint(1, 5), text.count("\n")
            words.append(f"--block={block}")
            told = f"appended {-(-lines // block)} growths, size {len(self.records)}\n"
        return words, text, told, status

    def set(self, pick):
        count = pick.randint(1, 3)
        start = pick.randint(0, len(self.records) + 1)
        new = [pick.randrange(20) for _ in range(count)]
        words, text = ["set", "u64", path, str(start), "--records=" + ",".join(map(str, new))], ""
        if pick.random() < 0.5:
            words[-1] = "--input"
            new = new[: pick.randint(0, count)]
            text = "".join(f"{record}{pick.choice([' ', LF])}" for record in new[:-1]) + "".join(f"{it}\n" for it in new[-1:])
        if not new:
            return words, text, "ok\n", 0
        if start + len(new) > len(self.records):
            return words, text, "refused: out of range\n", 1
        self.records[start : start + len(new)] = new
        self.live += 1
        return words, text, "ok\n", 0

    def resize(self, pick):
        n, record = pick.randint(0, len(self.records) + 3), pick.randrange(20)
        words = ["resize", "u64", path, str(n), f"--record={record}"]
        if pick.random() < 0.5:
            words.append("--parts")
        if pick.random() < 0.03:
            # More new records than a frame takes.
            n = len(self.records) + MOST[self.version] + pick.randint(1, 9)
            words[3] = str(n)
            if words[-1] != "--parts":
                return words, "", "refused: too large\n", 1
        if n < len(self.records) and self.live:
            return words, "", "refused: unfolded\n", 1
        self.records = (self.records + [record] * n)[:n] if n < len(self.records) else self.records + [record] * (n - len(self.records))
        return words, "", "ok\n", 0

    def clear(self, pick):
        words = ["clear", "u64", path]
        if self.live:
            return words, "", "refused: unfolded\n", 1
        self.records = []
        return words, "", "ok\n", 0

    def fold(self, pick):
        folded, self.live = self.live, 0
        return ["fold", "u64", path], "", f"folded {folded}\n", 0

    def create(self, pick):
        return ["create", "u64", path], "", "refused: exists\n", 1

    def list(self, pick):
        words, start, count = ["list", "u64", path], 0, len(self.records)
        if pick.random() < 0.5:
            start = pick.randint(0, len(self.records) + 1)
            words.append(f"--from={start}")
        if pick.random() < 0.5:
            count = pick.randint(0, 5)
            words.append(f"--count={count}")
        return words, "", "".join(f"{record}\n" for record in self.records[start : start + count]), 0

    def follow(self, pick):
        start = pick.randint(0, len(self.records) + 1)
        return ["follow", "u64", path, "--once", f"--from={start}"], "", "".join(f"{it}\n" for it in self.records[start:]), 0

    def count(self, pick):
        record = pick.randrange(20)
        return ["count", "u64", path, f"--record={record}"], "", f"{self.records.count(record)}\n", 0

    def find(self, pick):
        record = pick.randrange(20)
        told = str(self.records.index(record)) if record in self.records else "none"
        return ["find", "u64", path, f"--record={record}"], "", told + "\n", 0


STEPS = ["load", "append", "set", "set", "resize", "clear", "fold", "create", "list", "follow", "count", "find"]


def check(model):
    """The numbers of the file that the list tells."""
    told, status = answer(["check", "u64", path])
    words = told.split()
    wanted = f"ok version {model.version} width 8 size {len(model.records)} live {model.live}".split()
    return status == 0 and words[:7] == wanted[:7] and words[9:] == wanted[7:]


def upgrade(model):
    told = f"upgraded size {len(model.records)}\n" if model.version == 1 else "refused: not version 1\n"
    if answer(["upgrade", "u64", path, other]) != (told, 0 if model.version == 1 else 1):
        return False
    if model.version == 1:
        os.replace(other, path)
        model.version, model.live = 2, 0
    return True


def copy(model, pick):
    words, version, size = ["copy", "u64", path, other], model.version, len(model.records)
    if pick.random() < 0.5:
        version = pick.choice([1, 2])
        words.append(f"--format={version}")
    block = MOST[version]
    if size < 1000 and pick.random() < 0.5:
        block = pick.randint(1, 5)
        words.append(f"--block={block}")
    frames = -(-size // block)
    if answer(words) != (f"copied size {size}\n", 0):
        return False
    if answer(["check", "u64", other]) != (f"ok version {version} width 8 size {size} frames {frames} live 0\n", 0):
        return False
    os.replace(other, path)
    model.version, model.live = version, 0
    return True


def play(seed):
    pick = random.Random(seed)
    for name in (path, other):
        if os.path.exists(name):
            os.remove(name)
    model = Model(pick.choice([1, 1, 2]))
    if answer(["create", "u64", path, f"--format={model.version}"]) != ("created\n", 0):
        return f"script {seed}: create"
    for step in pick.choices(STEPS, k=pick.randint(3, 12)):
        words, lines, told, status = getattr(model, step)(pick)
        if answer(words, lines) != (told, status):
            return f"script {seed}: {' '.join(words)}: wanted {told!r}"
    if pick.random() < 0.2 and not upgrade(model):
        return f"script {seed}: upgrade"
    if pick.random() < 0.2 and not copy(model, pick):
        return f"script {seed}: copy"
    if not check(model):
        return f"script {seed}: check"
    if answer(["list", "u64", path]) != ("".join(f"{record}\n" for record in model.records), 0):
        return f"script {seed}: list"
    events, status = answer(["follow", "u64", path, "--once", "--events"])
    if status != 0 or events.splitlines()[:-1] != [f"+ {record}" for record in model.records]:
        return f"script {seed}: events"
    return None


for seed in range(scripts):
    fault = play(seed)
    if fault:
        print(fault)
        sys.exit(1)
