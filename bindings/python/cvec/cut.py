"""A segment file as it was at one moment, as plain data. It takes numpy and no library; the writer is asked nothing, and goes on.

    cut = cvec.cut.take("trades.cv", "u64")              # what stands on the device now
    for first, block in cvec.cut.blocks(cut): ...        # arrays, each of the records from position `first` on
    cut = cvec.cut.refreshed(cut)                        # reads the frames that came since, and no other

A cut holds no file open, and is pickled. It is made of places: frames of a file are never moved, so any process of the machine reads
the records of a cut later, in any order. Two things end that, and both are raised, never answered over: `Replaced` and `Moved`.
Appends, shrinks, and folds of changes that the cut has leave a cut as it is.

How a file is read beside its writer stands at the head of frames.py. docs/use/many.md says what is exact."""
from __future__ import annotations

import ctypes
import dataclasses
import mmap
import os
import struct
from typing import Any, Iterator, NamedTuple

try:
    import numpy
except ImportError as fault:
    raise ImportError("cvec.cut takes numpy, which is Debian's package python3-numpy") from fault

from .frames import CHANGE, GROUP, HEAD_BYTES, HEADER_BYTES, OPEN, SHRINK, Fault, Tally, frame_at, frames, version_of
from .kinds import Records, Rows
from .records import IN_FILE

# A mark stands at the first frame behind so many records, or behind so many bytes of small frames.
MARK_RECORDS, MARK_BYTES = 1 << 20, 1 << 24
# So much is read ahead, where frames are small; a block, and what is computed of it, stays in a processor's cache.
WINDOW, BLOCK_BYTES = 1 << 18, 1 << 18
# From a frame of so many bytes on its head is read alone. What is read of it then, beyond its gate and count.
LARGE, HEADS = 1 << 15, 64
# Of the first and the last records so many bytes are kept, by which a file is known again.
SAMPLE_BYTES = 64
# A Group's gate, kind, length and count.
_GROUP = struct.Struct("<BBII")
GROUP_HEAD = _GROUP.size


class Replaced(Exception):
    """Another file has the name, none has it, or this one was emptied."""


class Moved(Exception):
    """Records of the cut were changed after it, so what stood there may be written over."""


# ---- what a record is

def kind_of(kind: Any) -> Records | Rows:
    """Of a type's word, or of a dtype, whose records are rows of the file's. ValueError: there is no such type, or no row."""
    return Records(kind) if isinstance(kind, str) and kind in IN_FILE else Rows(kind)


def dtype_of(kind: Any) -> numpy.dtype:
    return kind_of(kind).dtype_in_file


def width_of(kind: Any) -> int:
    """How wide a record of the file is. A row is several."""
    return kind_of(kind).width_in_file


# ---- which file it is

class _Time(ctypes.Structure):
    _fields_ = [("seconds", ctypes.c_int64), ("nanoseconds", ctypes.c_uint32), ("_", ctypes.c_int32)]


class _Statx(ctypes.Structure):
    _fields_ = [("mask", ctypes.c_uint32), ("_1", ctypes.c_uint32 * 15), ("_2", _Time), ("born", _Time), ("_3", ctypes.c_uint8 * 160)]


_LIBC = ctypes.CDLL(None, use_errno=True)
_AT_EMPTY_PATH, _STATX_BTIME = 0x1000, 0x800


def identity_of(descriptor: int) -> tuple[int, int, int]:
    """Which file of this machine it is: device, number, and time of birth, or 0 where the file system has none. A number is given
    again once its file is gone."""
    stat, told = os.fstat(descriptor), _Statx()
    if _LIBC.statx(descriptor, b"", _AT_EMPTY_PATH, _STATX_BTIME, ctypes.byref(told)) != 0 or not told.mask & _STATX_BTIME:
        return stat.st_dev, stat.st_ino, 0
    return stat.st_dev, stat.st_ino, told.born.seconds * 10**9 + told.born.nanoseconds


def _open(path: str) -> int:
    return os.open(path, os.O_RDONLY | os.O_CLOEXEC | os.O_NONBLOCK)


class Sample(NamedTuple):
    """Bytes of the file at the cut's moment, by which it is known again."""

    place: int
    data: bytes
    position: int | None
    """Of the first record, where these are home bytes: a fold may write over them. Other bytes of frames stay as they are."""


# ---- a cut

def _first_mark(value: int) -> Any:
    return dataclasses.field(default_factory=lambda: numpy.array([value], "i8"))


@dataclasses.dataclass(eq=False)
class Cut(Tally):
    """The vector of one moment. `len(cut)` is its records, and `gate` the closed gate at which its frames end."""

    path: str = ""
    kind: Any = "u64"
    """A type word, or a dtype of rows."""
    identity: tuple[int, int, int] = (0, 0, 0)
    lineage: str = ""
    """Stays from `take` through each `refreshed`. Where it, `changes` and `shrinks` stay, so do the records that were read."""
    samples: tuple[Sample, ...] = ()
    positions: Any = _first_mark(0)
    """Marks: the frames with the records from this position on begin at the gate beside it."""
    gates: Any = _first_mark(HEADER_BYTES)

    @property
    def dtype(self) -> numpy.dtype:
        return dtype_of(self.kind)

    @property
    def words(self) -> int:
        """How many records of the file one of the kind is."""
        return self.dtype.itemsize // self.width

    def __len__(self) -> int:
        return self.size // self.words

    def bare(self) -> Cut:
        """With its last mark alone, which is what `refreshed` takes."""
        return dataclasses.replace(self, positions=self.positions[-1:], gates=self.gates[-1:])

    def with_marks_of(self, before: Cut) -> Cut:
        """A cut that was refreshed from one without marks, with those that the one before it had. A shrink may have taken some."""
        kept = int(numpy.searchsorted(before.positions, self.positions[0]))
        return dataclasses.replace(self, positions=numpy.concatenate([before.positions[:kept], self.positions]),
                                   gates=numpy.concatenate([before.gates[:kept], self.gates]))

    def part(self, start: int, stop: int) -> Cut:
        """For these records alone: with the marks and changes that they and the samples take."""
        low, high = start * self.words, stop * self.words
        first = int(numpy.searchsorted(self.positions, low, "right")) - 1
        last = max(first + 1, int(numpy.searchsorted(self.positions, high, "left")))
        ranges = [(low, high), *((it.position, it.position + len(it.data) // self.width) for it in self.samples if it.position is not None)]
        live = [it for it in self.live if any(it.low < end and start < it.high for start, end in ranges)]
        return dataclasses.replace(self, positions=self.positions[first:last], gates=self.gates[first:last], live=live)


class _Window:
    """A file as a source of frames, read ahead piece by piece, each by one call of pread."""

    def __init__(self, descriptor: int) -> None:
        self.descriptor, self.ahead = descriptor, WINDOW
        self._room = numpy.empty(WINDOW, "u1")
        self.forget()

    def forget(self) -> None:
        """What is read from now on is read anew."""
        self.bytes, self.base, self.length = self._room[:0], 0, 0

    def reaches(self, place: int) -> bool:
        if place > self.length:
            self.length = os.fstat(self.descriptor).st_size
        return place <= self.length

    def view(self, place: int, count: int) -> Any:
        """These bytes, or those that there are, until the next call."""
        at = place - self.base
        if at < 0 or at + count > len(self.bytes):
            if count > len(self._room):
                self._room = numpy.empty(count, "u1")
            room = self._room[:max(count, self.ahead)]
            self.bytes, self.base, at = room[:os.preadv(self.descriptor, [room], place)], place, 0
        return self.bytes[at:at + count]

    def read(self, place: int, count: int) -> bytes:
        return self.view(place, count).tobytes()

    @property
    def end(self) -> int:
        """How far it was read ahead."""
        return self.base + len(self.bytes)

    def alike(self, gate: int, step: int, front: int) -> int:
        """How many frames of this step begin one behind the other with the same bytes, as far as the window shows."""
        at, times = gate - self.base, 1
        most = (len(self.bytes) - at - front) // step + 1 if at >= 0 else 1
        while times < most:
            ahead = min(64 * times, most - times)
            heads = numpy.ndarray((ahead + 1, front), "u1", self.bytes, at + (times - 1) * step, (step, 1))
            same = (heads[1:] == heads[0]).all(axis=1)
            if not same.all():
                return times + int(same.argmin())
            times += ahead
        return times


def take(path: Any, kind: Any, sync: bool = True) -> Cut:
    """The cut of now. Without `sync` its last frame needn't be on the device. Fault: the file has no vector of the kind; OSError: it
    can't be read."""
    path, dtype = os.fspath(path), dtype_of(kind)
    descriptor = _open(path)
    try:
        header = os.pread(descriptor, HEADER_BYTES, 0)
        cut = Cut(version_of(header, width_of(kind)), width_of(kind), path=path, kind=kind if isinstance(kind, str) else dtype,
                  identity=identity_of(descriptor), lineage=os.urandom(8).hex(), samples=(Sample(0, header, None),))
        return _walked(descriptor, cut, sync)
    finally:
        os.close(descriptor)


def refreshed(cut: Cut, sync: bool = True) -> Cut:
    """The cut of now, of the same file. Replaced: it is the same no more; Fault, OSError: as of `take`."""
    with Source(cut) as source:
        return _walked(source.descriptor, dataclasses.replace(cut, live=list(cut.live)), sync)


def _walked(descriptor: int, cut: Cut, sync: bool) -> Cut:
    """Takes the cut on, up to the closed gate of now."""
    window, marks, begun = _Window(descriptor), _Marks(cut), cut.gate
    first, last = None, None
    while (frame := frame_at(window, cut)) is not None:
        times = _times(window, frame)
        marks.take(cut, frame)
        cut.take(frame, times)
        first, last = first or frame, frame._replace(gate=cut.last, first=frame.first + cut.last - frame.gate)
        window.ahead = HEADS if frame.step > LARGE else WINDOW
    if cut.size % cut.words:
        raise Fault(f"{cut.size} records are no whole rows", cut.gate)
    cut.positions, cut.gates = numpy.array(marks.positions, "i8"), numpy.array(marks.gates, "i8")
    if last is not None:
        cut.samples = _samples(descriptor, cut, first if begun == HEADER_BYTES else None, last)
    if last is not None and sync:
        os.fdatasync(descriptor)
    return cut


def _times(window: _Window, frame: Any) -> int:
    """How many Groups there are with the heads of this one, itself among them, as far as the window and the file reach."""
    front = frame.first - frame.gate
    if frame.kind != GROUP or frame.step > LARGE or front > SAMPLE_BYTES:
        return 1
    times = window.alike(frame.gate, frame.step, front)
    while times > 1 and not window.reaches(frame.gate + times * frame.step):
        times -= 1
    return times


class _Marks:
    """The marks of a cut, as it is taken on."""

    def __init__(self, cut: Cut) -> None:
        self.positions, self.gates = cut.positions.tolist(), cut.gates.tolist()

    def take(self, tally: Tally, frame: Any) -> None:
        """With what was counted before this frame."""
        if frame.kind == SHRINK:
            while self.positions and self.positions[-1] >= frame.number:
                self._pop()
            self._push(frame.number, frame.gate)
        elif frame.kind == GROUP and tally.size > self.positions[-1] and (
                tally.size - self.positions[-1] >= MARK_RECORDS or frame.gate - self.gates[-1] >= MARK_BYTES):
            self._push(tally.size, frame.gate)

    def _push(self, position: int, gate: int) -> None:
        self.positions.append(position)
        self.gates.append(gate)

    def _pop(self) -> None:
        self.positions.pop()
        self.gates.pop()


def _samples(descriptor: int, cut: Cut, first: Any, last: Any) -> tuple[Sample, ...]:
    """Those of the first frame, or where that is None those of the cut before, and those of the last one."""
    if first is None:
        wanted = [(it.place, len(it.data), it.position) for it in cut.samples[:-2]]
    else:
        wanted = [(0, HEADER_BYTES + HEAD_BYTES, None)]
        if first.kind == GROUP:
            wanted.append((first.first, _sampled(cut, first) * cut.width, 0))
    wanted += [(last.gate, HEAD_BYTES, None), _end_of(cut, last)]
    return tuple(Sample(place, os.pread(descriptor, count, place), position) for place, count, position in wanted)


def _sampled(cut: Cut, group: Any) -> int:
    """How many of these records are kept."""
    return min(max(1, SAMPLE_BYTES // cut.width), group.records)


def _end_of(cut: Cut, last: Any) -> tuple[int, int, int | None]:
    """Place, length and first position of the last sample, which ends at the closed gate."""
    if last.kind == GROUP:
        count = _sampled(cut, last)
        return cut.gate - count * cut.width, count * cut.width, cut.size - count
    place = max(last.gate + HEAD_BYTES, cut.gate - SAMPLE_BYTES)
    return place, cut.gate - place, None


# ---- its records

class _Run(NamedTuple):
    """The records of a live change."""

    starts: Any
    lengths: Any
    offsets: Any
    """How many records of the change stand before those of a run."""
    place: int


class Source:
    """The file of a cut, open to read its records. Replaced: it isn't that file."""

    def __init__(self, cut: Cut) -> None:
        self.cut = cut
        try:
            self.descriptor = _open(cut.path)
        except FileNotFoundError:
            raise Replaced(f"{cut.path}: there is none") from None
        try:
            # What came behind the cut: how far it was read, and which ranges it changed.
            self._behind, self._changed = Tally(cut.version, cut.width, cut.gate, size=cut.size, changes=cut.changes,
                                                folded=cut.folded, live=list(cut.live)), []
            self._window, self._new = _Window(self.descriptor), _Window(self.descriptor)
            if identity_of(self.descriptor) != cut.identity:
                raise Replaced(f"{cut.path}: another file has the name")
            if not self._has(cut.samples):
                self._read_behind()
                self._check_samples()
        except BaseException:
            self.close()
            raise

    def close(self) -> None:
        os.close(self.descriptor)

    def __enter__(self) -> Source:
        return self

    def __exit__(self, *_: Any) -> None:
        self.close()

    # ---- whether the file still has them

    def check(self, start: int, stop: int) -> None:
        """Behind a read of records of the file from `start` to `stop`. Moved: a change of some came behind the cut; Replaced: the
        file was emptied."""
        if not self._is_as_it_was():
            self._read_behind()
            self._check_samples()
        for low, high in self._changed:
            if low < stop and start < high:
                raise Moved(f"{self.cut.path}: records {max(low, start)} to {min(high, stop) - 1} were changed")

    def _has(self, samples: tuple[Sample, ...]) -> bool:
        return all(os.pread(self.descriptor, len(it.data), it.place) == it.data for it in samples)

    def _is_as_it_was(self) -> bool:
        """Whether nothing came behind what was read, and the samples are the same."""
        samples, gate = self.cut.samples, self._behind.gate
        if gate != self.cut.gate:
            return os.pread(self.descriptor, 1, gate) not in (b"", b"\1") and self._has(samples)
        # The last sample ends at the gate.
        seen = os.pread(self.descriptor, len(samples[-1].data) + 1, samples[-1].place)
        return seen[:-1] == samples[-1].data and seen[-1] != OPEN and self._has(samples[:-1])

    def _read_behind(self) -> None:
        self._new.forget()
        try:
            for frame in frames(self._new, self._behind):
                if frame.kind == CHANGE:
                    self._changed.append((self._behind.live[-1].low, self._behind.live[-1].high))
        except Fault as fault:
            # What stands there isn't what a writer of this file has put behind the cut, unless the file is damaged.
            self._check_samples()
            raise Fault(f"{self.cut.path}: {fault.cause}", fault.place) from fault

    def _check_samples(self) -> None:
        """Home bytes may be others where a change covers them that is live in the cut, or came behind it."""
        for sample in self.cut.samples:
            seen = os.pread(self.descriptor, len(sample.data), sample.place)
            if seen != sample.data and (sample.position is None or not self._may_be_folded(sample, seen)):
                raise Replaced(f"{self.cut.path} was emptied")

    def _may_be_folded(self, sample: Sample, seen: bytes) -> bool:
        width = self.cut.width
        ranges = [*self._changed, *((it.low, it.high) for it in self.cut.live)]
        for at in range(0, len(sample.data), width):
            position = sample.position + at // width
            if seen[at:at + width] != sample.data[at:at + width] and not any(low <= position < high for low, high in ranges):
                return False
        return len(seen) == len(sample.data)

    # ---- where they stand

    def _groups(self, position: int, gate: int) -> Iterator[tuple[int, int, int, int, int]]:
        """The Groups of the cut from this gate on, the first of whose records has this position: that, the place, how many each has,
        how many such frames there are, and how far it is from one to the next. They were checked when the cut was taken."""
        window = self._window
        while gate < self.cut.gate:
            head = window.view(gate, GROUP_HEAD)
            opened, kind, length, count = _GROUP.unpack_from(head) if len(head) == GROUP_HEAD else (0, 0, 0, 0)
            step, records, times = HEAD_BYTES + length, (length - 4 - 4 * count) // self.cut.width, 1
            if opened != OPEN or kind == GROUP and records < 1:
                raise Replaced(f"{self.cut.path} was emptied")
            if kind == GROUP:
                if step <= LARGE:
                    # What is read ahead begins with a frame, so that whole ones are copied from it.
                    window.view(gate, step)
                    times = max(1, min(window.alike(gate, step, GROUP_HEAD), (min(self.cut.gate, window.end) - gate) // step))
                yield position, gate + GROUP_HEAD + 4 * count, records, times, step
                position += records * times
            gate += step * times
            window.ahead = HEADS if step > LARGE else WINDOW

    def rows(self, start: int, stop: int) -> Iterator[tuple[int, int, int, int]]:
        """Where the records of the file from `start` to `stop` stand: the place of the first, how many stand one behind the other,
        how many such rows there are, and how far it is from one to the next."""
        positions, gates = self.cut.positions.tolist(), self.cut.gates.tolist()
        mark = int(numpy.searchsorted(self.cut.positions, start, "right")) - 1
        while start < stop:
            # From a mark on positions follow one another up to the next one; in between, a shrink may have taken records.
            limit = min(stop, positions[mark + 1]) if mark + 1 < len(positions) else stop
            for group in self._groups(positions[mark], gates[mark]):
                if group[0] > start:
                    break
                yield from _trimmed(group, start, limit, self.cut.width)
                start = max(start, min(limit, group[0] + group[2] * group[3]))
                if start >= limit:
                    break
            if start < limit:
                raise Replaced(f"{self.cut.path} has no record {start}")
            mark += 1

    # ---- the records themselves

    def blocks(self, start: int = 0, stop: int | None = None, block_bytes: int = BLOCK_BYTES) -> Iterator[tuple[int, Any]]:
        """As `blocks` of this module."""
        cut, words = self.cut, self.cut.words
        stop = _checked(cut, start, stop)
        buffer = numpy.empty(min(max(1, block_bytes // cut.dtype.itemsize), stop - start) * cut.dtype.itemsize, "u1")
        changes = list(self._changes(start * words, stop * words))
        parts, first = _Parts(self.rows(start * words, stop * words), cut.width), start
        while first < stop:
            out = buffer[:self._fill(buffer, parts)]
            if not len(out):
                raise Replaced(f"{cut.path} has no record {first}")
            for change in changes:
                self._lay(change, out.reshape(-1, cut.width), first * words)
            self.check(start * words, stop * words)
            if cut.kind == "flagged" and (out[8::9] > 1).any():
                raise Fault("bad record", self._place_of(first + int((out[8::9] > 1).argmax())))
            block = out.view(cut.dtype)
            yield first, block
            first += len(block)

    def _fill(self, buffer: Any, parts: _Parts) -> int:
        """How many bytes of it are the next records: whole rows, which end with a frame if they can."""
        at, room, words, width = 0, len(buffer) // self.cut.width, self.cut.words, self.cut.width
        while at < room and (row := parts.next(room - at, at > 0 and at % words == 0)) is not None:
            place, count, times, step = row
            self._copy(buffer[at * width:(at + count * times) * width], place, times, step)
            at += count * times
        return at * width

    def _copy(self, out: Any, place: int, times: int, step: int) -> None:
        """So many rows, so far from one another."""
        row = len(out) // times
        if times == 1 and row > LARGE:
            self._read(out, place)
            return
        seen = self._window.view(place, (times - 1) * step + row)
        if len(seen) < (times - 1) * step + row:
            raise Replaced(f"{self.cut.path} is shorter")
        out.reshape(times, row)[:] = numpy.ndarray((times, row), "u1", seen, 0, (step, 1))

    def _read(self, out: Any, place: int) -> None:
        view = memoryview(out)
        while view:
            done = os.preadv(self.descriptor, [view], place)
            if done == 0:
                raise Replaced(f"{self.cut.path} is shorter")
            view, place = view[done:], place + done

    def _changes(self, start: int, stop: int) -> Iterator[_Run]:
        """The live changes of these records, in order."""
        for change in self.cut.live:
            if change.low < stop and start < change.high:
                frame = frame_at(self._window, Tally(self.cut.version, self.cut.width, change.gate))
                if frame is None or frame.kind != CHANGE:
                    raise Replaced(f"{self.cut.path} was emptied")
                runs = numpy.array(frame.runs, "i8")
                yield _Run(runs[:, 0], runs[:, 1], numpy.cumsum(runs[:, 1]) - runs[:, 1], frame.first)

    def _lay(self, change: _Run, rows: Any, first: int) -> None:
        """Puts the records of a change over those of a block, which begins at this position."""
        low = int(numpy.searchsorted(change.starts + change.lengths, first, "right"))
        high = int(numpy.searchsorted(change.starts, first + len(rows), "left"))
        if low >= high:
            return
        starts, lengths = change.starts[low:high].copy(), change.lengths[low:high].copy()
        skip = max(0, first - int(starts[0]))
        starts[0] += skip
        lengths[0] -= skip
        lengths[-1] -= max(0, int(starts[-1] + lengths[-1]) - first - len(rows))
        data = numpy.empty(int(lengths.sum()) * self.cut.width, "u1")
        self._read(data, change.place + (int(change.offsets[low]) + skip) * self.cut.width)
        ends = numpy.cumsum(lengths)
        positions = numpy.repeat(starts - (ends - lengths), lengths) + numpy.arange(int(ends[-1]))
        rows[positions - first] = data.reshape(-1, self.cut.width)

    def _place_of(self, position: int) -> int:
        """Where the bytes of this record stand: in its last live change, or at home."""
        for change in reversed(list(self._changes(position, position + 1))):
            run = int(numpy.searchsorted(change.starts, position, "right")) - 1
            if run >= 0 and position < change.starts[run] + change.lengths[run]:
                return change.place + int(change.offsets[run] + position - change.starts[run]) * self.cut.width
        return next(self.rows(position, position + 1))[0]


def _trimmed(group: tuple[int, int, int, int, int], start: int, limit: int, width: int) -> Iterator[tuple[int, int, int, int]]:
    """The rows of these frames, from one position to another: a part of a frame, whole ones, and a part."""
    position, place, each, times, step = group
    start, end = max(start, position), min(position + each * times, limit)
    while start < end:
        frame, within = divmod(start - position, each)
        whole = (end - start) // each if within == 0 else 0
        count, number = (each, whole) if whole else (min(each - within, end - start), 1)
        yield place + frame * step + within * width, count, number, step
        start += count * number


class _Parts:
    """Rows, cut as the blocks want them."""

    def __init__(self, rows: Iterator[tuple[int, int, int, int]], width: int) -> None:
        self.rows, self.width, self.rest = rows, width, []

    def next(self, room: int, may_end: bool) -> tuple[int, int, int, int] | None:
        """The next row or rows, of at most so many records. None: there is no more, or none that fits whole where that may be the
        end."""
        row = self.rest.pop() if self.rest else next(self.rows, None)
        if row is None:
            return None
        place, count, times, step = row
        whole = min(times, room // count)
        if whole == times:
            return row
        if whole:
            self.rest.append((place + whole * step, count, times - whole, step))
            return place, count, whole, step
        if may_end:
            self.rest.append(row)
            return None
        if times > 1:
            self.rest.append((place + step, count, times - 1, step))
        self.rest.append((place + room * self.width, count - room, 1, step))
        return place, room, 1, step


def _checked(cut: Cut, start: int, stop: int | None) -> int:
    stop = len(cut) if stop is None else stop
    if not 0 <= start <= stop <= len(cut):
        raise ValueError(f"a cut of {len(cut)} records has none from {start} to {stop}")
    return stop


def blocks(cut: Cut, start: int = 0, stop: int | None = None, block_bytes: int = BLOCK_BYTES) -> Iterator[tuple[int, Any]]:
    """The records from `start` to `stop`: pairs of a position and an array with the records from there on. The next block writes over
    an array. Moved, Replaced: before a block is given that may not be the cut's; Fault: a flag is none, or what came behind the cut
    is damaged; ValueError: the cut has no such records."""
    with Source(cut) as source:
        yield from source.blocks(start, stop, block_bytes)


def read(cut: Cut, start: int = 0, stop: int | None = None) -> Any:
    """A copy of these records, as one array. It raises what `blocks` does."""
    stop = _checked(cut, start, stop)
    found = [block for _, block in blocks(cut, start, stop, max(1, stop - start) * cut.dtype.itemsize)]
    return found[0] if found else numpy.empty(0, cut.dtype)


def pieces(cut: Cut, start: int = 0, stop: int | None = None) -> Iterator[Any]:
    """These records where they stand in the mapped file: views, unaligned, with a dimension more where several frames are alike.
    Moved, Replaced: behind a piece, when the next one or the end is asked for, so nothing is to be answered before the end.
    ValueError: a change is live, or a row lies in two frames. A file that becomes shorter ends the process (SIGBUS)."""
    stop = _checked(cut, start, stop)
    if cut.live:
        raise ValueError("a change is live: take a copy")
    with Source(cut) as source:
        seen = mmap.mmap(source.descriptor, 0, access=mmap.ACCESS_READ)
        for place, count, times, step in source.rows(start * cut.words, stop * cut.words):
            if count % cut.words:
                raise ValueError("a row lies in two frames: take a copy")
            yield numpy.ndarray((times, count // cut.words), cut.dtype, seen, place, (step, cut.dtype.itemsize))[0 if times == 1 else ...]
            source.check(start * cut.words, stop * cut.words)


# ---- records by their bits

def packed(kind: Any, record: Any) -> bytes:
    """The bytes of one record of the kind. Of rows it is one of numpy's of that dtype. ValueError: the kind has no such record."""
    dtype = dtype_of(kind)
    if isinstance(kind, str) and kind in IN_FILE:
        return IN_FILE[kind].pack([record])
    if isinstance(record, numpy.generic) and record.dtype == dtype:
        return record.tobytes()
    raise ValueError(f"no record of the type: not one of {dtype}")


def places_of(block: Any, data: bytes) -> Any:
    """Where in a block records with these bytes stand, as `cvec find` compares: NaN is found by its bits, and -0.0 isn't 0.0."""
    width = len(data)
    if width in (1, 2, 4, 8):
        return numpy.flatnonzero(block.view(f"<u{width}") == numpy.frombuffer(data, f"<u{width}")[0])
    rows = block.view("u1").reshape(-1, width)
    if width < 8:
        return numpy.flatnonzero((rows == numpy.frombuffer(data, "u1")).all(axis=1))
    first = numpy.ndarray(len(block), "<u8", rows, 0, (width,))
    found = numpy.flatnonzero(first == numpy.frombuffer(data[:8], "<u8")[0])
    return found[(rows[found] == numpy.frombuffer(data, "u1")).all(axis=1)]
