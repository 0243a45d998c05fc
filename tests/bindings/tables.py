"""The numbers that the bindings for Python and plain Rust have in their sources are those of types.txt and statuses.txt, and the widths
of Python's types are those of the former. No two statuses and no two causes have one sentence: tables.py"""
import os
import re
import sys

HERE = os.path.dirname(os.path.abspath(__file__))
BINDINGS = os.path.join(HERE, "..", "..", "bindings")
sys.path.insert(0, os.path.join(BINDINGS, "python"))
from cvec import errors, records, server

# What a vector never answers.
OF_FILES = {"DONE", "NO_ROOM", "NO_FRAME", "NO_RECORD", "READ_ONLY", "AGAIN", "UNSETTLED"}


def rows_of(name):
    with open(os.path.join(HERE, name)) as file:
        return [line.split(" ", 3) for line in file]


def text_of(*path):
    with open(os.path.join(BINDINGS, *path)) as file:
        return file.read()


def upper(name):
    """NotSegment as NOT_SEGMENT."""
    return re.sub(r"(?<=[a-z])(?=[A-Z])", "_", name).upper()


statuses = {name: int(number) for number, name, *_ in rows_of("statuses.txt")}
types = {name: tuple(map(int, (number, width, size))) for number, name, width, size in rows_of("types.txt")}
for name in ("statuses.txt", "causes.txt"):
    sentences = [line.split(" ", 2)[2] for line in text_of(HERE, name).splitlines()]
    assert len(set(sentences)) == len(sentences), name
of_clients = {name: number for name, number in statuses.items() if number >= statuses["GONE"]}
of_vectors = {name: number for name, number in statuses.items() if name not in OF_FILES | of_clients.keys()}

assert {it.name: it.value for it in errors.Status} == {name: number for name, number in statuses.items() if name != "DONE"}
# What a server answers are numbers from 1 on.
sentences = {int(number): text for number, name, text in (line.split(" ", 2) for line in text_of(HERE, "statuses.txt").splitlines())}
assert list(server._SENTENCES) == [sentences[number] for number in sorted(of_clients.values())[1:]]
assert {it: (form.width, records.IN_C[it].width) for it, form in records.IN_FILE.items()} == {it: row[1:] for it, row in types.items()}

kinds = re.findall(r"^ +(\w+) = (\d+),$", text_of("rust", "src", "error.rs"), re.M)
never = OF_FILES - {"NO_RECORD", "READ_ONLY"} | of_clients.keys()
assert {upper(name).replace("NO_SEAT", "NOT_SO"): int(number) for name, number in kinds} == {it: statuses[it] for it in statuses if it not in never}
record = text_of("rust", "src", "record.rs")
kept = {name.lower(): int(number) for name, number in re.findall(r"^const (\w+): u32 = (\d+);$", record, re.M)}
assert sorted(kept) == ["bytes24", "bytes32", "bytes64", "flagged", "pair", "u16", "u32", "u64", "u8"], kept
assert all(types[name][0] == number for name, number in kept.items()), kept
