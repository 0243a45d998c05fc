"""The frames of a segment file (docs/file/format.md), for who reads it beside the program that writes it. Python alone; numpy sums
long rows where it is there.

No lock is taken, and nothing is asked of the writer. What is read is the vector of one moment, by four rules:

1. Gate first: the bytes of a frame count only if they are read after its gate was read open. One call of `pread` copies from the
   first byte on. A map is read by one access after the other, which processors of the x86 family do in the order of the program;
   on others, take `pread`.
2. Frame by frame: each change as it comes, a shrink cuts, and a fold is nothing. Home bytes may be written meanwhile; the walk meets
   the change that they are of, before it finds a closed gate.
3. Nothing is answered before a closed gate has been read.
4. All frames but the last are on the device, since a writer syncs a gate before it writes the next frame. For the last one the
   reader syncs the file itself.

What they rest on: docs/file/disk.md, under `SharedFile`.

A *source* is what frames are read of: `read(place, count)` answers these bytes, or those that there are, and `reaches(place)` whether
the file has so many."""
from __future__ import annotations

import array
import dataclasses
import struct
import sys
from typing import Any, Iterator, NamedTuple

from .records import numpy

HEADER_BYTES, HEAD_BYTES, OPEN = 11, 6, 1
GROUP, CHANGE, SHRINK, FOLD = 1, 2, 3, 4
PAYLOAD_LIMITS = {1: 1 << 20, 2: 1 << 24}
RECORD_LIMIT = 1 << 32
_HEAD, _NUMBER, _RUN = struct.Struct("<BI"), struct.Struct("<Q"), struct.Struct("<QI")


class Fault(Exception):
    """The file has no vector of the type: `cause` names the first fault as docs/file/format.md does, and `place` is its byte."""

    def __init__(self, cause: str, place: int) -> None:
        super().__init__(cause, place)
        self.cause, self.place = cause, place

    def __str__(self) -> str:
        return f"{self.cause} at {self.place}"


class Frame(NamedTuple):
    """An open frame whose payload has the form of its kind."""

    gate: int
    """The place of its gate."""
    kind: int
    """GROUP, CHANGE, SHRINK or FOLD."""
    length: int
    """The bytes of its payload."""
    records: int = 0
    """How many records a Group or a Change has."""
    first: int = 0
    """The place of the first of them."""
    runs: tuple[tuple[int, int], ...] = ()
    """The runs of a Change: the first position, and how many."""
    number: int = 0
    """What a Shrink or a Fold says."""

    @property
    def step(self) -> int:
        """How far it is to the next gate."""
        return HEAD_BYTES + self.length


class Change(NamedTuple):
    """A change that no fold has brought home."""

    gate: int
    number: int
    """Its number in the file, from 0 on."""
    low: int
    """The first position of its first run."""
    high: int
    """The position behind its last run."""


@dataclasses.dataclass
class Tally:
    """What the frames up to a gate come to."""

    version: int
    width: int
    gate: int = HEADER_BYTES
    """Behind the last frame that was taken on."""
    last: int = 0
    """The gate of that frame, and 0 where there is none."""
    frames: int = 0
    size: int = 0
    """How many records the vector has."""
    changes: int = 0
    folded: int = 0
    """What the last Fold says."""
    shrinks: int = 0
    live: list[Change] = dataclasses.field(default_factory=list)

    def take(self, frame: Frame, times: int = 1) -> None:
        """Counts a frame that stands at the gate, or a Group and those behind it, so many in all, whose heads are alike. Fault: it
        can't stand there."""
        _TAKE[frame.kind](self, frame, times)
        self.frames += times
        self.last = frame.gate + (times - 1) * frame.step
        self.gate = frame.gate + times * frame.step

    def _take_group(self, frame: Frame, times: int) -> None:
        fit = (RECORD_LIMIT - self.size) // frame.records
        if fit < times:
            raise Fault("too long", frame.gate + fit * frame.step + HEAD_BYTES)
        self.size += frame.records * times

    def _take_change(self, frame: Frame, _: int) -> None:
        end = 0
        for start, length in frame.runs:
            if start < end:
                raise Fault("runs", frame.gate + HEAD_BYTES)
            end = start + length
        if end > self.size:
            raise Fault("range", frame.gate + HEAD_BYTES)
        self.live.append(Change(frame.gate, self.changes, frame.runs[0][0], end))
        self.changes += 1

    def _take_shrink(self, frame: Frame, _: int) -> None:
        if frame.number > self.size:
            raise Fault("range", frame.gate + HEAD_BYTES)
        if self.live:
            raise Fault("unfolded", frame.gate)
        self.size = frame.number
        self.shrinks += 1

    def _take_fold(self, frame: Frame, _: int) -> None:
        if not self.folded <= frame.number <= self.changes:
            raise Fault("fold count", frame.gate + HEAD_BYTES)
        self.folded = frame.number
        self.live = [it for it in self.live if it.number >= frame.number]


_TAKE = {GROUP: Tally._take_group, CHANGE: Tally._take_change, SHRINK: Tally._take_shrink, FOLD: Tally._take_fold}


def version_of(header: bytes, width: int) -> int:
    """The version of a file that begins with these bytes. Fault: it is none with records of this width."""
    if len(header) <= 1 or header[0] != OPEN:
        raise Fault("unborn", 0)
    if len(header) < HEADER_BYTES or header[1:8] != b"CVECSEG":
        raise Fault("not a segment", 1)
    version, found = struct.unpack("<BH", header[8:HEADER_BYTES])
    if version not in PAYLOAD_LIMITS:
        raise Fault(f"version {version}", 8)
    if found != width:
        raise Fault(f"width {found}", 9)
    return version


def frame_at(source: Any, tally: Tally) -> Frame | None:
    """The frame at the tally's gate, or None where that is closed. Fault: none can stand there."""
    gate = tally.gate
    opened = source.read(gate, 1)
    if not opened:
        raise Fault("no gate", gate)
    if opened[0] != OPEN:
        return None
    head = source.read(gate + 1, HEAD_BYTES - 1)
    if len(head) < HEAD_BYTES - 1:
        raise Fault("short frame", gate)
    kind, length = _HEAD.unpack(head)
    if kind not in _PAYLOADS:
        raise Fault(f"kind {kind}", gate + 1)
    if length > PAYLOAD_LIMITS[tally.version]:
        raise Fault("too large", gate + 2)
    if not source.reaches(gate + HEAD_BYTES + length):
        raise Fault("short frame", gate)
    return _PAYLOADS[kind](source, tally, gate, length)


def frames(source: Any, tally: Tally) -> Iterator[Frame]:
    """The frames from the tally's gate on, up to a closed one. Each is counted before it is given."""
    while (frame := frame_at(source, tally)) is not None:
        tally.take(frame)
        yield frame


# ---- the payload of each kind

def _layout(gate: int) -> Fault:
    return Fault("layout", gate + HEAD_BYTES)


def _count_at(source: Any, gate: int, length: int, entry: int) -> int:
    """How many entries of so many bytes stand in front of the records."""
    count = int.from_bytes(source.read(gate + HEAD_BYTES, 4), "little") if length >= 4 else 0
    if count < 1 or 4 + entry * count > length:
        raise _layout(gate)
    return count


def _sum_of(lengths: bytes) -> int:
    """The sum of these numbers, or 0 where one of them is 0."""
    if len(lengths) == 4:
        return int.from_bytes(lengths, "little")
    if numpy is not None:
        row = numpy.frombuffer(lengths, "<u4")
        return int(row.sum(dtype="u8")) if row.all() else 0
    row = array.array("I", lengths)
    if sys.byteorder == "big":
        row.byteswap()
    return 0 if 0 in row else sum(row)


def _group(source: Any, tally: Tally, gate: int, length: int) -> Frame:
    count = _count_at(source, gate, length, 4)
    records, front = _sum_of(source.read(gate + HEAD_BYTES + 4, 4 * count)), 4 + 4 * count
    if records == 0 or front + records * tally.width != length:
        raise _layout(gate)
    return Frame(gate, GROUP, length, records, gate + HEAD_BYTES + front)


def _change(source: Any, tally: Tally, gate: int, length: int) -> Frame:
    if tally.version == 1:
        records, rest = divmod(length - 8, tally.width)
        if records < 1 or rest:
            raise _layout(gate)
        start, = _NUMBER.unpack(source.read(gate + HEAD_BYTES, 8))
        return Frame(gate, CHANGE, length, records, gate + HEAD_BYTES + 8, ((start, records),))
    count = _count_at(source, gate, length, 12)
    runs, front = tuple(_RUN.iter_unpack(source.read(gate + HEAD_BYTES + 4, 12 * count))), 4 + 12 * count
    records = sum(it for _, it in runs)
    if not all(it for _, it in runs) or front + records * tally.width != length:
        raise _layout(gate)
    return Frame(gate, CHANGE, length, records, gate + HEAD_BYTES + front, runs)


def _number(kind: int) -> Any:
    def frame(source: Any, tally: Tally, gate: int, length: int) -> Frame:
        if length != 8:
            raise _layout(gate)
        return Frame(gate, kind, length, number=_NUMBER.unpack(source.read(gate + HEAD_BYTES, 8))[0])
    return frame


_PAYLOADS = {GROUP: _group, CHANGE: _change, SHRINK: _number(SHRINK), FOLD: _number(FOLD)}
