"""Reads a vector beside the program that writes its file: beside.py TYPE FILE

The file is mapped, and read while it changes. Each look gives the vector as it was at one moment of that look, by the rules at the
head of bindings/python/cvec/frames.py, which walks the frames."""
import mmap
import os
import struct
import sys

sys.path.insert(0, os.path.join(os.path.dirname(os.path.abspath(__file__)), "..", "..", "bindings", "python"))
from cvec.frames import CHANGE, GROUP, HEADER_BYTES, SHRINK, Fault, Tally, frames, version_of

TYPES = {"u8": "<B", "u16": "<H", "u32": "<I", "u64": "<Q", "i32": "<i", "i64": "<q", "f32": "<f", "f64": "<d",
         "pair": "<Qq", "flagged": "<QB", "bytes16": "16s", "bytes24": "24s", "bytes32": "32s", "bytes64": "64s"}


class Replaced(Exception):
    """Another file stands in the place of the one that was read."""


class Reader:
    """The records of a file, and how far it was read. A look goes on from there. Once a look has raised anything the reader is
    done."""

    def __init__(self, path, kind):
        self.path, self.form = path, struct.Struct(TYPES[kind])
        self.file = open(path, "rb", buffering=0)
        self.map, self.records = b"", bytearray()
        self.tally = Tally(version_of(self.read(0, HEADER_BYTES), self.form.size), self.form.size)

    def reaches(self, place):
        """Whether the file has so many bytes. It is mapped anew where it has grown past the map."""
        if place > len(self.map):
            length = os.fstat(self.file.fileno()).st_size
            if length > len(self.map):
                self.map = mmap.mmap(self.file.fileno(), length, access=mmap.ACCESS_READ)
        return place <= len(self.map)

    def read(self, place, count):
        """These bytes, or those that there are."""
        self.reaches(place + count)
        return self.map[place:place + count]

    def look(self):
        """The bytes of all records, as they were at one moment of this call, and stand on the device."""
        before = self.tally.gate
        for frame in frames(self, self.tally):
            self.replay(frame)
        if self.tally.gate != before:
            os.fdatasync(self.file.fileno())
        if not os.path.samestat(os.stat(self.path), os.fstat(self.file.fileno())):
            raise Replaced(self.path)
        return self.records

    def replay(self, frame):
        """Does to the records what a frame does to the vector."""
        width = self.form.size
        if frame.kind == GROUP:
            self.records += self.read(frame.first, frame.records * width)
        elif frame.kind == CHANGE:
            place = frame.first
            for start, length in frame.runs:
                self.records[start * width:(start + length) * width] = self.read(place, length * width)
                place += length * width
        elif frame.kind == SHRINK:
            del self.records[frame.number * width:]

    def texts(self):
        """The records of the last look, as `cvec list` writes them, but floats as Python does."""
        return (":".join(map(text_of, fields)) for fields in self.form.iter_unpack(self.records))


def text_of(field):
    return field.hex() if isinstance(field, bytes) else str(field)


if __name__ == "__main__":
    reader = Reader(sys.argv[2], sys.argv[1])
    try:
        reader.look()
    except Fault as fault:
        sys.exit(f"{sys.argv[2]}: {fault}")
    for text in reader.texts():
        print(text)
