"""The blocks that the writers of a vector grow by, in Python and Rust, and how a file is checked for them."""
import os
import sys

sys.path.append(os.path.join(os.path.dirname(os.path.abspath(__file__)), "..", "fuzz"))
import reader


def block(round, name, turn):
    """A block of a thread: its first record says whose it is, and how long. The others follow from it."""
    length = 1 + (name * 7 + turn * 13 + round * 29) % 60
    head = round << 48 | name << 40 | turn << 8 | length
    return [head] + [(head * 31 + at) % 2 ** 64 for at in range(1, length)]


def records_of(path, type="u64"):
    """What the file has, read by its format."""
    with open(path, "rb") as file:
        return [int.from_bytes(it, "little") for it in reader.File(file.read(), type).cells]


def places_of(records):
    """Where the blocks stand that these records are: each whole, and of each round and thread its turns in order."""
    at, places, turns = 0, {}, {}
    while at < len(records):
        head = records[at]
        round, name, turn, length = head >> 48, head >> 40 & 0xff, head >> 8 & 0xffffffff, head & 0xff
        assert records[at:at + length] == block(round, name, turn), f"no whole block at {at}"
        assert turn == turns.get((round, name), 0), f"turn {turn} of thread {name} stands at {at}"
        turns[round, name] = turn + 1
        places[round, name, turn] = at
        at += length
    return places
