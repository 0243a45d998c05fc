#!/usr/bin/env python3
"""Cuts of files of each type that the program writes, by its commands: each_type.py FOLDER PROGRAM

Behind each command the records are those of the test's own list, which has them as bytes and as texts. The last line says how many types
there were, and how many moments."""
import os
import random
import struct
import subprocess
import sys

TOP = os.path.join(os.path.dirname(os.path.abspath(__file__)), "..", "..")
sys.path.insert(0, os.path.join(TOP, "bindings", "python"))
import cvec

FOLDER, PROGRAM = map(os.path.abspath, sys.argv[1:3])
# Of each type records as the program has them, and the bytes of each.
RECORDS = {
    **{kind: [(str(it), struct.pack(form, it)) for it in values] for kind, form, values in [
        ("u8", "<B", [0, 7, 255]), ("u16", "<H", [0, 258, 65535]), ("u32", "<I", [0, 2**32 - 1]), ("u64", "<Q", [0, 5, 2**64 - 1]),
        ("i32", "<i", [-2**31, -1, 2**31 - 1]), ("i64", "<q", [-2**63, -1, 2**63 - 1])]},
    "f32": [("0.5", struct.pack("<f", 0.5)), ("-0.0", struct.pack("<f", -0.0)), ("inf", struct.pack("<f", float("inf")))],
    "f64": [("0.1", struct.pack("<d", 0.1)), ("-0.0", struct.pack("<d", -0.0)), ("NaN:18446744073709551615", b"\xff" * 8)],
    "pair": [("7:-3", struct.pack("<Qq", 7, -3)), ("18446744073709551615:5", struct.pack("<Qq", 2**64 - 1, 5))],
    "flagged": [("5:1", struct.pack("<QB", 5, 1)), ("6:0", struct.pack("<QB", 6, 0))],
    **{f"bytes{width}": [(it.hex(), it) for it in (bytes(range(width)), b"\0" * (width - 1) + b"\x12")] for width in (16, 24, 32, 64)},
}


class File:
    """A file, by commands, and its records."""

    def __init__(self, kind, path, version):
        self.kind, self.path, self.records, self.is_folded = kind, path, [], True
        self.do("create", f"--format={version}", "--over")

    def do(self, command, *words, text=""):
        subprocess.run([PROGRAM, command, self.kind, self.path, *words], input=text, text=True, check=True, stdout=subprocess.DEVNULL)

    def append(self, new, *words):
        self.do("append", *words, text="".join(f"{it}\n" for it, _ in new))
        self.records += [it for _, it in new]

    def set(self, start, new):
        self.do("set", str(start), f"--records={','.join(it for it, _ in new)}")
        self.records[start:start + len(new)] = [it for _, it in new]

    def resize(self, length, record):
        self.do("resize", str(length), f"--record={record[0]}")
        self.records = self.records[:length] + [record[1]] * (length - len(self.records))

    def copy(self, *words):
        self.do("copy", f"{self.path}.copy", *words)
        os.rename(f"{self.path}.copy", self.path)


def steps_of(file, pick):
    """Some commands, one after the other."""
    new = lambda count: pick.choices(RECORDS[file.kind], k=count)
    yield lambda: file.append(new(3))
    yield lambda: file.append(new(700), f"--block={pick.choice([1, 7, 100])}")
    yield lambda: file.set(pick.randrange(600), new(50))
    yield lambda: file.append(new(1))
    yield lambda: file.do("fold")
    yield lambda: file.resize(pick.randrange(600), new(1)[0])
    yield lambda: file.resize(len(file.records) + 30, new(1)[0])
    yield lambda: file.copy(*pick.choice([["--block=3"], ["--format=2"], []]))
    yield lambda: file.set(0, new(5))


def main():
    moments = 0
    for kind in RECORDS:
        pick = random.Random(kind)
        file = File(kind, os.path.join(FOLDER, f"{kind}.cv"), pick.choice([1, 2]))
        cut = cvec.cut.take(file.path, kind)
        for step in steps_of(file, pick):
            step()
            try:
                cut = cvec.cut.refreshed(cut)
            except cvec.cut.Replaced:
                cut = cvec.cut.take(file.path, kind)
            for it in cut, cvec.cut.take(file.path, kind):
                assert cvec.cut.read(it).tobytes() == b"".join(file.records), f"{kind}: other records after {moments} moments"
            moments += 1
    print(f"{len(RECORDS)} types, {moments} moments")


main()
