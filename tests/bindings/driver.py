"""Follows a table of cases by cvec.File and cvec.Map, as driver.c does by cvec.h: driver.py FILE"""
import os
import sys

import cvec
from words import listed, record_of

handles = {}


def open_file(call, name, kind, path):
    """In the path \\xHH stands for a byte: a file is made by a text of that name, and opened by its bytes."""
    path = path.encode().decode("unicode_escape").encode("latin-1")
    handles[name] = call(os.fsdecode(path) if call == cvec.File.create else path, kind), kind


def append(name, *words):
    file, kind = handles[name]
    file.append([record_of(kind, it) for it in words])


def read(name, *numbers):
    file, kind = handles[name]
    return listed(kind, file.read(*map(int, numbers)))


def stat_text(stat):
    names = ("size", "frames", "changes", "folded", "gate", "width", "version")
    return " ".join(f"{name} {getattr(stat, name)}" for name in names)


def close(name):
    """What is closed may be closed again."""
    handles[name][0].close()
    handles[name][0].close()


def frames(kind, path):
    with cvec.Map(path, kind) as seen:
        lines = [f"at {at} kind {it.kind} payload {it.payload_len} growths {it.growths} records {it.records} "
                 f"first {it.first_record}" for at, it in seen.frames()]
        return "\n".join([stat_text(seen.stat), *lines])


def read_map(kind, path):
    with cvec.Map(path, kind) as seen:
        if not seen.is_plain():
            return "a change is live"
        records = list(seen.records())
        assert len(records) == len(seen) == seen.stat.size
        return listed(kind, records)


def put(path, hex=""):
    with open(path, "wb") as file:
        file.write(bytes.fromhex(hex))


def bytes_of(path):
    with open(path, "rb") as file:
        return file.read().hex()


def shell(*words):
    sys.stdout.flush()
    os.system(" ".join(words))
    return ""


COMMANDS = {
    "create": lambda *words: open_file(cvec.File.create, *words), "open": lambda *words: open_file(cvec.File.open, *words),
    "open-to-read": lambda *words: open_file(cvec.File.open_to_read, *words),
    "append": append, "read": read, "stat": lambda name: stat_text(handles[name][0].stat), "close": close,
    "frames": frames, "map": read_map, "put": put, "bytes": bytes_of, "sh": shell,
}
SILENT = ("put",)


def answer(word, *words):
    try:
        told = COMMANDS[word](*words)
    except cvec.Error as it:
        return f"refused {it.status:d} {it.args[0]}; at {it.at} cause {it.cause} found {it.found} errno {it.errno}\n"
    if told is None:
        return "" if word in SILENT else "done\n"
    return told + "\n" if told or word != "sh" else ""


def main(path):
    with open(path) as table:
        for line in table:
            if line[0] in "#\n>":
                sys.stdout.write(line)
            if line[0] == ">":
                sys.stdout.write(answer(*line[2:].split()))


main(*sys.argv[1:])
