"""A pen for tests of what reads a file beside its writer, by the frames of tests/fuzz/writer.py. It shares no code with the program and
none with the readers. Each call makes the writes of a commit in their order: the frame with its gate closed and a closed gate behind
it, then its gate. It syncs nothing, as no test stops the machine. Beside the file it keeps the records, each as its bytes."""
import os
import struct
import sys

sys.path.append(os.path.join(os.path.dirname(os.path.abspath(__file__)), "..", "fuzz"))
from writer import change, fold, frame, group, header, shrink


class Pen:
    """Writes one file. `records` is the vector, and `homes` where each record's home is."""

    def __init__(self, path, version=1, width=8):
        self.path, self.version, self.width = path, version, width
        new = f"{path}.new"
        with open(new, "wb") as file:
            file.write(header(version, width) + b"\0")
        self.file = os.open(new, os.O_RDWR)
        os.rename(new, path)
        self._begin()

    def _begin(self):
        self.gate, self.records, self.homes, self.changes, self.live, self.frames = 11, [], [], 0, [], 0

    def close(self):
        os.close(self.file)

    def begin_commit(self, data):
        """All but the gate, which is the first byte."""
        os.pwrite(self.file, data[1:] + b"\0", self.gate + 1)

    def end_commit(self, data):
        os.pwrite(self.file, data[:1], self.gate)
        self.gate += len(data)
        self.frames += 1

    def commit(self, data):
        self.begin_commit(data)
        self.end_commit(data)

    def grow(self, *growths):
        """One Group of these growths."""
        front = self.gate + 10 + 4 * len(growths)
        self.commit(group(growths))
        for record in (it for growth in growths for it in growth):
            self.homes.append(front)
            self.records.append(record)
            front += self.width

    def change(self, *runs):
        self.commit(change(self.version, runs))
        for start, records in runs:
            self.live.append((self.changes, start, records))
            self.records[start:start + len(records)] = records
        self.changes += 1

    def write_homes(self, count):
        """The first half of a fold: what these changes have changed goes home, as it was behind the last of them."""
        for _, start, records in (it for it in self.live if it[0] < count):
            for position, record in enumerate(records, start):
                os.pwrite(self.file, record, self.homes[position])

    def fold(self, count=None):
        """Of all changes, or of so many first ones."""
        count = self.changes if count is None else count
        self.write_homes(count)
        self.commit(fold(count))
        self.live = [it for it in self.live if it[0] >= count]

    def shrink(self, length):
        """Where no change is live."""
        assert not self.live
        self.commit(shrink(length))
        del self.records[length:], self.homes[length:]

    def empty(self):
        """As `create --over` does where the file has two names: it stays the same file."""
        os.ftruncate(self.file, 0)
        os.pwrite(self.file, header(self.version, self.width) + b"\0", 0)
        self._begin()

    def compact(self):
        """Another file, with the same records and one frame, takes the name."""
        pen = Pen(f"{self.path}.copy", self.version, self.width)
        for first in range(0, len(self.records), 10_000):
            pen.grow(self.records[first:first + 10_000])
        os.rename(pen.path, self.path)
        pen.path = self.path
        self.close()
        return pen


def numbers(records):
    """Records of u64, as bytes."""
    return [struct.pack("<Q", it) for it in records]
