#!/usr/bin/env python3
"""Tests of bindings/python/cvec/cut.py over files that tests/many/pen.py writes: cuts.py FOLDER [NAME ..]

Expected records are those of the writer's own lists. The last line is 'N passed, N failed'. MANY_FILES is the number of random
files."""
import os
import pickle
import random
import struct
import sys
import threading
import time

TOP = os.path.join(os.path.dirname(os.path.abspath(__file__)), "..", "..")
sys.path.insert(0, os.path.join(TOP, "bindings", "python"))
import numpy

import cvec
import pen as format
import random_files
import reader
from cases import Skipped, main, raises
from cvec.cut import Fault, Moved, Replaced
from pen import Pen, numbers

FOLDER = os.path.abspath(sys.argv[1])
FILES = int(os.environ.get("MANY_FILES", "25"))


def at(name):
    return os.path.join(FOLDER, name)


def records_of(cut, start=0, stop=None):
    """Each record as its bytes."""
    data = cvec.cut.read(cut, start, stop).tobytes()
    return [data[at:at + cut.width] for at in range(0, len(data), cut.width)]


def sees(cut, records):
    assert len(cut) == len(records), f"{len(cut)} records, not {len(records)}"
    assert records_of(cut) == records, "other records"


# ---- random files

class Steps:
    """Random steps of a pen, by frames that make the readers' ways differ: many alike, large ones, changes over several."""

    def __init__(self, pick, pen):
        self.pick, self.pen = pick, pen

    def new(self, count, least=0):
        return numbers(self.pick.randrange(least, least + 100) for _ in range(count))

    def take(self):
        step = self.pick.choices([self.grow, self.grow_alike, self.grow_large, self.change, self.fold, self.shrink], [5, 2, 1, 4, 2, 1])[0]
        step()

    def grow(self):
        self.pen.grow(*(self.new(self.pick.randint(1, 4)) for _ in range(self.pick.randint(1, 4))))

    def grow_alike(self):
        each = self.pick.choice([1, 3, 40])
        for _ in range(self.pick.randint(1, 40)):
            self.pen.grow(self.new(each))

    def grow_large(self):
        self.pen.grow(self.new(self.pick.randint(1, 9000)))

    def change(self):
        runs, position, size = [], 0, len(self.pen.records)
        for _ in range(self.pick.randint(1, 6) if self.pen.version == 2 else 1):
            position += self.pick.randint(0, max(1, size // 3))
            count = min(self.pick.choice([1, 1, 7, 300]), size - position)
            if count > 0:
                runs.append((position, self.new(count, 1000)))
                position += count
        if runs:
            self.pen.change(*runs)

    def fold(self):
        """Of all changes, or of the first that are live: others have overtaken it."""
        first = self.pen.live[0][0] if self.pen.live else self.pen.changes
        self.pen.fold(self.pick.choice([self.pen.changes, self.pick.randint(first, self.pen.changes)]))

    def shrink(self):
        if not self.pen.live:
            size = len(self.pen.records)
            self.pen.shrink(self.pick.choice([size, size // 2, max(0, size - 5), self.pick.randint(0, size)]))


def looks(pick, cut, records):
    """Any part of it, by blocks of any size, and in place where that is possible."""
    sees(cut, records)
    for _ in range(4):
        start = pick.randint(0, len(records))
        stop = pick.randint(start, len(records))
        assert records_of(cut, start, stop) == records[start:stop], f"from {start} to {stop}"
        assert records_of(pickle.loads(pickle.dumps(cut.part(start, stop))), start, stop) == records[start:stop], "a part"
        by_blocks = [(first, block.tobytes()) for first, block in cvec.cut.blocks(cut, start, stop, pick.choice([1, 64, 808, 9999]))]
        assert b"".join(it for _, it in by_blocks) == b"".join(records[start:stop]), "by blocks"
        assert all(data == b"".join(records[first:first + len(data) // 8]) for first, data in by_blocks), "a block's position"
    if not cut.live:
        assert b"".join(it.tobytes() for it in cvec.cut.pieces(cut)) == b"".join(records), "in place"


def an_old_cut_has_its_own_records(cut, was, pen):
    """Or says that it has not, for which there is a reason."""
    try:
        assert records_of(cut) == was, "an old cut has other records"
        return 0
    except Moved:
        assert pen.changes > cut.changes, "nothing was changed"
        return 1


def random_files_are_as_a_list():
    cvec.cut.MARK_RECORDS, cvec.cut.MARK_BYTES = 50, 4000
    moved = read = 0
    for seed in range(FILES):
        pick = random.Random(seed)
        pen = Pen(at("random.cv"), pick.choice([1, 2]))
        steps, cut, old = Steps(pick, pen), cvec.cut.take(pen.path, "u64"), []
        for _ in range(pick.randint(1, 30)):
            steps.take()
            if pick.random() < 0.4:
                cut, whole = pick.choice([cvec.cut.refreshed, refreshed_without_marks])(cut), cvec.cut.take(pen.path, "u64")
                told = [(it.size, it.gate, it.changes, it.folded, it.live, it.frames, it.shrinks) for it in (cut, whole)]
                assert told[0] == told[1], f"refreshed {told[0]}, taken {told[1]}"
                looks(pick, cut, pen.records)
                sees(whole, pen.records)
                old.append((cut, list(pen.records)))
        for cut, was in old[-4:]:
            moved += an_old_cut_has_its_own_records(cut, was, pen)
            read += 1
        pen.close()
    assert 0 < moved < read, f"{moved} of {read} old cuts moved"


def refreshed_without_marks(cut):
    return cvec.cut.refreshed(pickle.loads(pickle.dumps(cut.bare()))).with_marks_of(cut)


def what_stands_behind_the_gate_means_nothing():
    pen = Pen(at("junk.cv"))
    pen.grow(numbers([5, 7]))
    os.pwrite(pen.file, b"\0" + b"\1" * 5000, pen.gate)
    sees(cvec.cut.take(pen.path, "u64"), pen.records)
    cut = cvec.cut.take(pen.path, "u64")
    pen.grow(numbers([11]))
    sees(cvec.cut.refreshed(cut), numbers([5, 7, 11]))


def a_frame_whose_gate_is_closed_is_none():
    pen = Pen(at("closed.cv"))
    pen.grow(numbers([5]))
    data = format.group([numbers([7])])
    pen.begin_commit(data)
    cut = cvec.cut.take(pen.path, "u64")
    sees(cut, numbers([5]))
    pen.end_commit(data)
    sees(cut, numbers([5]))
    sees(cvec.cut.refreshed(cut), numbers([5, 7]))


# ---- what ends a cut

class Opening:
    """A source whose frame is written between any read and that of its gate."""

    def __init__(self, data):
        self.data, self.seen = data, b"\0" * len(data)

    def read(self, place, count):
        found = self.seen[place:place + count]
        if (place, count) == (11, 1):
            self.seen = self.data
            found = self.data[11:12]
        return found

    def reaches(self, place):
        return place <= len(self.data)


def a_gate_is_read_before_its_frame():
    for data in format.group([numbers([5])]), format.change(1, [(0, numbers([6]))]), format.shrink(0), format.fold(0):
        source = Opening(format.header(1, 8) + data + b"\0")
        frame = cvec.cut.frame_at(source, cvec.cut.Tally(1, 8))
        assert frame is not None and frame.kind == data[1] and 11 + frame.step == len(source.data) - 1, frame


def a_change_behind_a_cut_moves_it():
    """As soon as its gate is open, also before its fold: no block is given that may be half old."""
    pen = Pen(at("moved.cv"), 2)
    pen.grow(*(numbers(range(first, first + 100)) for first in range(0, 1000, 100)))
    cut = cvec.cut.take(pen.path, "u64")
    pen.change((500, numbers([7] * 50)))
    assert records_of(cut, 0, 500) == numbers(range(500)), "records that no change touches"
    assert records_of(cut, 550) == numbers(range(550, 1000)), "records that no change touches"
    for start, stop in (0, 1000), (499, 501), (549, 550):
        raises(Moved, lambda: cvec.cut.read(cut, start, stop))
    raises(Moved, lambda: next(cvec.cut.blocks(cut)))
    pen.fold()
    raises(Moved, lambda: cvec.cut.read(cut))
    sees(cvec.cut.refreshed(cut), pen.records)


def a_change_between_two_blocks_moves_the_second():
    pen = Pen(at("between.cv"))
    pen.grow(numbers(range(1000)))
    blocks = cvec.cut.blocks(cvec.cut.take(pen.path, "u64"), block_bytes=800)
    assert next(blocks)[1].tobytes() == b"".join(numbers(range(100)))
    pen.change((900, numbers([7])))
    pen.fold()
    raises(Moved, lambda: next(blocks))


def a_change_behind_growths_that_were_seen_moves_a_cut():
    pen = Pen(at("growths.cv"))
    pen.grow(numbers(range(1000)))
    blocks = cvec.cut.blocks(cvec.cut.take(pen.path, "u64"), block_bytes=800)
    for number in range(5):
        assert next(blocks)[1].tobytes() == b"".join(numbers(range(100 * number, 100 * number + 100)))
        pen.grow(numbers([number]))
    pen.change((999, numbers([7])))
    raises(Moved, lambda: next(blocks))


def the_last_frame_is_brought_to_the_device():
    """Behind the closed gate, once, and not where nobody wants it or nothing is new."""
    pen, synced, sync = Pen(at("synced.cv")), [], os.fdatasync
    pen.grow(numbers([5]))
    cvec.cut.os.fdatasync = lambda it: synced.append(os.path.samestat(os.fstat(it), os.stat(pen.path)))
    try:
        cut = cvec.cut.take(pen.path, "u64", sync=False)
        assert synced == []
        cut = cvec.cut.take(pen.path, "u64")
        assert synced == [True]
        cut = cvec.cut.refreshed(cut)
        assert synced == [True]
        pen.grow(numbers([7]))
        cvec.cut.refreshed(cut, sync=False)
        assert synced == [True]
        cvec.cut.refreshed(cut)
        assert synced == [True, True]
    finally:
        cvec.cut.os.fdatasync = sync


def a_half_of_a_fold_is_not_seen():
    """What is live in the cut is laid over its homes, whether these are written or not."""
    pen = Pen(at("half.cv"), 2)
    pen.grow(numbers(range(100)))
    pen.change((0, numbers([7, 8])), (50, numbers([9])))
    pen.change((1, numbers([10])))
    cut = cvec.cut.take(pen.path, "u64")
    sees(cut, pen.records)
    os.pwrite(pen.file, b"\xff" * 8, pen.homes[1])
    sees(cut, pen.records)
    pen.fold()
    sees(cut, pen.records)
    raises(ValueError, lambda: list(cvec.cut.pieces(cut)))
    cut = cvec.cut.refreshed(cut)
    sees(cut, pen.records)
    pen.shrink(60)
    pen.grow(numbers([1]))
    assert records_of(cut) == numbers([7, 10, *range(2, 50), 9, *range(51, 100)]), "what a shrink took is the cut's still"


def a_piece_in_place_is_checked_behind_it():
    pen = Pen(at("place.cv"))
    pen.grow(numbers(range(100)))
    pieces = cvec.cut.pieces(cvec.cut.take(pen.path, "u64"))
    assert next(pieces).tobytes() == b"".join(numbers(range(100)))
    pen.change((5, numbers([7])))
    raises(Moved, lambda: next(pieces))


def another_file_is_told():
    pen = Pen(at("other.cv"))
    pen.grow(numbers(range(10)))
    cut, was = cvec.cut.take(pen.path, "u64"), pen.records
    open_blocks = cvec.cut.blocks(cut, block_bytes=8)
    next(open_blocks)
    pen = pen.compact()
    for call in cvec.cut.refreshed, cvec.cut.read, lambda it: list(cvec.cut.pieces(it)):
        raises(Replaced, lambda: call(cut))
    # Who has the old file open reads it to its end.
    assert [block.tobytes() for _, block in open_blocks] == was[1:]
    sees(cvec.cut.take(pen.path, "u64"), pen.records)
    os.unlink(pen.path)
    raises(Replaced, lambda: cvec.cut.refreshed(cut))
    raises(FileNotFoundError, lambda: cvec.cut.take(pen.path, "u64"))


def a_file_that_was_emptied_is_told():
    pen = Pen(at("emptied.cv"))
    pen.grow(numbers(range(100)))
    pen.grow(numbers(range(100, 200)))
    cut = cvec.cut.take(pen.path, "u64")
    open_blocks = cvec.cut.blocks(cut, block_bytes=400)
    next(open_blocks)
    pen.empty()
    raises(Replaced, lambda: next(open_blocks))
    for growths in [], [range(5)], [range(1000)]:
        for growth in growths:
            pen.grow(numbers(growth))
        raises(Replaced, lambda: cvec.cut.refreshed(cut))
        raises(Replaced, lambda: cvec.cut.read(cut))


def an_empty_file_of_another_version_is_told():
    pen = Pen(at("version.cv"), 1)
    cut = cvec.cut.take(pen.path, "u64")
    sees(cvec.cut.refreshed(cut), [])
    pen.version = 2
    pen.empty()
    pen.grow(numbers([5, 6, 7]))
    pen.change((0, numbers([8])), (2, numbers([9])))
    raises(Replaced, lambda: cvec.cut.refreshed(cut))


def a_file_that_was_filled_again_to_the_same_shape_is_told():
    """By its first records, or its last."""
    for first, last in (1000, 100), (0, 1100):
        pen = Pen(at("shape.cv"))
        pen.grow(numbers(range(100)))
        pen.grow(numbers(range(100, 200)))
        cut = cvec.cut.take(pen.path, "u64")
        open_blocks = cvec.cut.blocks(cut, block_bytes=400)
        next(open_blocks)
        pen.empty()
        pen.grow(numbers(range(first, first + 100)))
        pen.grow(numbers(range(last, last + 100)))
        raises(Replaced, lambda: next(open_blocks))
        raises(Replaced, lambda: cvec.cut.read(cut))
        raises(Replaced, lambda: cvec.cut.refreshed(cut))
        pen.grow(numbers([1]))
        raises(Replaced, lambda: cvec.cut.refreshed(cut))
        pen.close()


def a_fold_of_the_first_and_last_records_is_no_other_file():
    pen = Pen(at("folded.cv"))
    pen.grow(numbers(range(100)))
    pen.change((0, numbers([7])))
    pen.change((99, numbers([8])))
    cut = cvec.cut.take(pen.path, "u64")
    pen.fold()
    sees(cut, pen.records)
    later = cvec.cut.refreshed(cut)
    assert later.lineage == cut.lineage
    sees(later, pen.records)
    pen.change((1, numbers([9])))
    pen.fold()
    raises(Moved, lambda: cvec.cut.read(later))
    assert records_of(later, 50, 60) == numbers(range(50, 60))
    sees(cvec.cut.refreshed(later), pen.records)


def the_next_file_of_a_number_is_another():
    """Its number in the file system may be that of the file before."""
    pen = Pen(at("number.cv"))
    pen.grow(numbers(range(10)))
    cut = cvec.cut.take(pen.path, "u64")
    if not cut.identity[2]:
        raise Skipped("this file system keeps no time of birth, for files that have a number of others")
    pen.close()
    os.unlink(pen.path)
    for _ in range(20):
        pen = Pen(at("number.cv"))
        pen.grow(numbers(range(10)))
        raises(Replaced, lambda: cvec.cut.refreshed(cut))
        pen.close()
        os.unlink(pen.path)


# ---- each type

TYPES = {
    "u8": ("<B", [0, 255, 7]), "u16": ("<H", [0, 65535]), "u32": ("<I", [0, 2**32 - 1]), "u64": ("<Q", [0, 2**64 - 1]),
    "i32": ("<i", [-2**31, 2**31 - 1]), "i64": ("<q", [-2**63, 2**63 - 1]), "f32": ("<f", [0.5, -0.0, float("inf")]),
    "f64": ("<d", [0.1, -0.0, float("-inf")]), "pair": ("<Qq", [(2**64 - 1, -2**63), (0, 5)]),
    "flagged": ("<Q?", [(5, True), (2**64 - 1, False)]), "bytes16": ("16s", [b"\0" * 15 + b"a", b"b" * 16]),
    "bytes24": ("24s", [b"\0" * 24, b"c" * 24]), "bytes32": ("32s", [b"d" * 32]), "bytes64": ("64s", [b"e" * 63 + b"\0", b"\0" * 64]),
}


def pack(form, value):
    return struct.pack(form, *value) if isinstance(value, tuple) else struct.pack(form, value)


def each_type_is_read():
    for kind, (form, values) in TYPES.items():
        pen = Pen(at(f"{kind}.cv"), 2, struct.calcsize(form))
        for count in 1, 3, 50:
            pen.grow(*([pack(form, values[it % len(values)]) for it in range(count)] for _ in range(2)))
        pen.change((1, [pack(form, values[-1])] * 5), (60, [pack(form, values[0])]))
        cut = cvec.cut.take(pen.path, kind)
        sees(cut, pen.records)
        if kind != "flagged" and not kind.startswith("bytes"):
            wanted = [struct.unpack(form, it) for it in pen.records]
            assert [it if isinstance(it, tuple) else (it,) for it in cvec.cut.read(cut).tolist()] == wanted, kind
        raises(Fault, lambda: cvec.cut.take(pen.path, "bytes64" if kind != "bytes64" else "u8"))


ROW = [("time", "<u8"), ("price", "<f8"), ("size", "<i4"), ("side", "<i4"), ("rest", "<u8", 2)]


def rows_are_read_also_over_frames():
    """A row of five words lies in two frames where these have twelve words."""
    rows = numpy.zeros(1000, ROW)
    rows["time"], rows["price"], rows["size"] = range(1000), numpy.arange(1000) * 0.25, numpy.arange(1000) % 7
    data = rows.tobytes()
    words = [data[it:it + 8] for it in range(0, len(data), 8)]
    pen = Pen(at("rows.cv"))
    for first in range(0, len(words), 12):
        pen.grow(words[first:first + 12])
    pen.change((16, numbers([7])))
    rows["price"][3] = struct.unpack("<d", struct.pack("<Q", 7))[0]
    cut = cvec.cut.take(pen.path, ROW)
    assert len(cut) == 1000 and cut.words == 5
    for start, stop in (0, 1000), (0, 1), (333, 999):
        for block_bytes in 1, 40, 100, 1 << 18:
            seen = [block.copy() for _, block in cvec.cut.blocks(cut, start, stop, block_bytes)]
            assert numpy.concatenate(seen).tobytes() == rows[start:stop].tobytes(), (start, stop, block_bytes)
    pen.fold()
    cut = cvec.cut.refreshed(cut)
    assert (cvec.cut.read(cut) == rows).all()
    raises(ValueError, lambda: list(cvec.cut.pieces(cut)))
    pen.grow(numbers([1]))
    raises(Fault, lambda: cvec.cut.refreshed(cut))
    for kind in "u7", "V300", "O", [("one", "O")]:
        raises(ValueError, lambda: cvec.cut.take(pen.path, kind))
    # Whose words are others.
    for kind in [("one", "<u4")], "V12", "V7":
        raises(Fault, lambda: cvec.cut.take(pen.path, kind))
    raises(ValueError, lambda: cvec.cut.read(cut, 5, 1001))


def a_record_is_compared_by_its_bits():
    for kind, values, one, count in [
            ("f64", [0.0, -0.0, 1.5, float("nan"), 1.5], 0.0, 1), ("f64", [0.0, -0.0, -0.0], -0.0, 2), ("f64", [float("nan")] * 3, float("nan"), 3),
            ("f32", [0.5, -0.0], -0.0, 1), ("i64", [-1, 2**63 - 1, -1], -1, 2), ("u64", [2**64 - 1, 5], 2**64 - 1, 1), ("u8", [5, 5, 6], 5, 2),
            ("pair", [(1, -1), (1, 1), (1, -1)], (1, -1), 2), ("flagged", [(1, True), (1, False)], (1, False), 1),
            ("bytes24", [b"a" * 24, b"a" * 23 + b"b"], b"a" * 23 + b"b", 1)]:
        form = TYPES[kind][0]
        pen = Pen(at("bits.cv"), 1, struct.calcsize(form))
        pen.grow([pack(form, it) for it in values])
        block = cvec.cut.read(cvec.cut.take(pen.path, kind))
        found = cvec.cut.places_of(block, cvec.cut.packed(kind, one)).tolist()
        wanted = [at for at, it in enumerate(values) if pack(form, it) == pack(form, one)]
        assert found == wanted and len(found) == count, f"{kind} {one}: {found}"
    for kind, none in [("u64", -1), ("u64", "5"), ("i64", 2**63), ("f32", 0.1), ("u8", 256), ("pair", 5), ("pair", (1, 2, 3)),
                       ("bytes16", b"a"), ("flagged", b"a" * 9), ("u64", None), (ROW, (1, 2.0, 3, 4)), ("u64", 1.0)]:
        raises(ValueError, lambda: cvec.cut.packed(kind, none))
    row = numpy.array([(1, it, 3, 4, (5, 6)) for it in (2.0, -0.0, 0.0)], ROW)
    assert cvec.cut.places_of(row, cvec.cut.packed(ROW, row[2])).tolist() == [2]
    for width in (3, 5, 6, 7, 9, 12):
        rows = numpy.frombuffer(bytes(range(1, 1 + 4 * width)), f"V{width}")[[0, 1, 2, 1, 3]]
        assert cvec.cut.places_of(rows, cvec.cut.packed(f"V{width}", rows[1])).tolist() == [1, 3]


# ---- what a file can't be

def faulty_files():
    """Of each row of the table in format.md: the cause, its place, and the bytes behind the header of version 2 and width 8."""
    one, two = format.group([numbers([5])]), format.change(2, [(0, numbers([6]))])
    head = lambda kind, length: b"\1" + struct.pack("<BI", kind, length)
    yield "no gate", 11, b"", None
    yield "no gate", 33, one, None
    yield "short frame", 33, one + b"\1\1", None
    yield "short frame", 33, one + head(1, 17) + b"x" * 16, None
    yield "kind 0", 34, one + head(0, 8) + b"x" * 8 + b"\0", None
    yield "kind 5", 34, one + head(5, 8) + b"x" * 8 + b"\0", None
    yield "too large", 35, one + head(1, (1 << 24) + 1) + b"x" * 64, None
    for payload in (struct.pack("<I", 0), struct.pack("<III", 1, 0, 0), struct.pack("<IIQ", 1, 2, 5),
                    struct.pack("<IIIQ", 2, 1, 0, 5), struct.pack("<IIQ", 9, 1, 5), struct.pack("<IIQB", 1, 1, 5, 0), b"\0\0"):
        yield "layout", 39, one + format.frame(1, payload) + b"\0", None
    for payload in (struct.pack("<I", 0), struct.pack("<IQI", 1, 0, 0), struct.pack("<IQIQQ", 1, 0, 1, 5, 5), struct.pack("<IQIQ", 2, 0, 1, 5)):
        yield "layout", 39, one + format.frame(2, payload) + b"\0", None
    yield "layout", 39, one + format.frame(3, b"\0" * 7) + b"\0", None
    yield "layout", 39, one + format.frame(4, b"\0" * 9) + b"\0", None
    yield "runs", 56, format.group([numbers([5, 5, 5, 5])]) + b"", format.change(2, [(1, numbers([6, 6])), (2, numbers([6]))])
    yield "range", 39, one + format.change(2, [(1, numbers([6]))]) + b"\0", None
    yield "range", 39, one + format.shrink(2) + b"\0", None
    yield "unfolded", 33 + len(two), one + two + format.shrink(1) + b"\0", None
    yield "fold count", 39, one + format.fold(1) + b"\0", None
    yield "fold count", 39 + len(two) + 14, one + two + format.fold(1) + format.fold(0) + b"\0", None


def each_fault_has_its_place():
    count = 0
    for cause, place, data, behind in faulty_files():
        if behind is not None:
            place, data = 11 + len(data) + 6, data + behind + b"\0"
        with open(at("fault.cv"), "wb") as file:
            file.write(format.header(2, 8) + data)
        found = raises(Fault, lambda: cvec.cut.take(at("fault.cv"), "u64"))
        assert (found.cause, found.place) == (cause, place), f"{found}, not {cause} at {place}"
        assert str(pickle.loads(pickle.dumps(found))) == f"{cause} at {place}"
        count += 1
    assert count == 26, count
    for data, cause in [(b"", "unborn"), (b"\1", "unborn"), (b"\0CVECSEG\1\10\0", "unborn"), (b"\1CVECSE", "not a segment"),
                        (b"\1CVECSEX\1\10\0\0", "not a segment"), (b"\1CVECSEG\3\10\0\0", "version 3"), (b"\1CVECSEG\1\11\0\0", "width 9")]:
        with open(at("fault.cv"), "wb") as file:
            file.write(data)
        assert raises(Fault, lambda: cvec.cut.take(at("fault.cv"), "u64")).cause == cause


def a_fault_among_frames_that_are_alike_has_its_place():
    frames = [format.group([numbers([it])]) for it in range(500)]
    size = len(frames[0])
    for number in 1, 7, 63, 499:
        data = b"".join([*frames[:number], frames[number][:9] + b"\1" + frames[number][10:], *frames[number + 1:]]) + b"\0"
        with open(at("alike.cv"), "wb") as file:
            file.write(format.header(1, 8) + data)
        found = raises(Fault, lambda: cvec.cut.take(at("alike.cv"), "u64"))
        assert (found.cause, found.place) == ("layout", 11 + number * size + 6), found
        with open(at("alike.cv"), "wb") as file:
            file.write(format.header(1, 8) + b"".join(frames[:number + 1])[:-3])
        found = raises(Fault, lambda: cvec.cut.take(at("alike.cv"), "u64"))
        assert (found.cause, found.place) == ("short frame", 11 + number * size), found


def a_vector_that_is_too_long_is_a_fault():
    """Its frames are told alike, with no bytes for all of their records."""
    tally = cvec.cut.Tally(1, 8, size=2**32 - 25)
    frame = cvec.cut.frame_at(Bytes(format.header(1, 8) + format.group([numbers(range(10))])), tally)
    assert (frame.records, frame.step) == (10, 94)
    found = raises(Fault, lambda: tally.take(frame, 5))
    assert (found.cause, found.place) == ("too long", 11 + 2 * 94 + 6), found
    tally.take(frame, 2)
    assert tally.size == 2**32 - 5


class Bytes:
    """A source of frames."""

    def __init__(self, data):
        self.data = data

    def read(self, place, count):
        return self.data[place:place + count]

    def reaches(self, place):
        return place <= len(self.data)


def a_flag_that_is_none_is_a_fault():
    good, bad = [struct.pack("<QB", it, it % 2) for it in range(100)], struct.pack("<QB", 5, 2)
    pen = Pen(at("flag.cv"), 1, 9)
    pen.grow(good)
    pen.grow([*good[:50], bad, *good[51:]])
    cut = cvec.cut.take(pen.path, "flagged")
    assert records_of(cut, 0, 150) == [*good, *good[:50]]
    found = raises(Fault, lambda: cvec.cut.read(cut))
    assert (found.cause, found.place) == ("bad record", pen.homes[150])
    # What is changed isn't looked at home.
    gate = pen.gate
    pen.change((150, [good[1]]))
    assert records_of(cvec.cut.refreshed(cut)) == pen.records
    pen.change((140, [good[0], bad]))
    found = raises(Fault, lambda: cvec.cut.read(cvec.cut.refreshed(cut)))
    assert (found.cause, found.place) == ("bad record", gate + 2 * 14 + 9 + 9)


def told_by_the_other_reader(image, kind):
    try:
        file = reader.File(image, kind)
        return file.cells, file.frames, len(file.changes) - file.folded
    except reader.Fault as fault:
        return str(fault)


def told_by_a_cut(path, kind):
    try:
        cut = cvec.cut.take(path, kind)
        return records_of(cut), cut.frames, len(cut.live)
    except Fault as fault:
        is_of_header = fault.cause.partition(" ")[0] in ("unborn", "not", "version", "width")
        return fault.cause if is_of_header else f"damaged at {fault.place}: {fault.cause}"


def any_file_is_read_or_refused_as_by_another_reader():
    """That of tests/fuzz, which shares nothing with this one: sound files, nearly sound ones, altered ones, and any bytes."""
    pick, counts = random.Random(7), [0, 0]
    for number in range(40 * FILES):
        image, kind = random_files.random_image(pick)
        with open(at("any.cv"), "wb") as file:
            file.write(image)
        wanted, found = told_by_the_other_reader(image, kind), told_by_a_cut(at("any.cv"), kind)
        assert found == wanted, f"{kind}, file {number}: {found}, not {wanted}"
        counts[isinstance(wanted, str)] += 1
    assert min(counts) > 4 * FILES, counts


# ---- beside a writer

def looks_beside_a_writer_are_of_one_moment():
    """Its file's records are those of its list at a moment between the last call that had ended before a look began, and the first that
    began after it. In between it makes its writes piece by piece."""
    pen, pick = Pen(at("beside.cv"), 2), random.Random(5)
    moments, ended, goes_on = [[]], 0, True
    def write():
        nonlocal ended
        steps = Steps(pick, pen)
        while goes_on and len(moments) < 4000:
            before = len(pen.records)
            # A list's copy is the moment that is being made, so it is kept before the file has it.
            step = pick.choice(["grow", "grow", "change", "change", "fold", "shrink"])
            planned(step, steps, pen, moments)
            if len(pen.records) > 3000:
                pen.fold()
                moments.append(pen.records[:10])
                pen.shrink(10)
            ended = len(moments) - 1
            time.sleep(0.001)
    writer = threading.Thread(target=write, daemon=True)
    writer.start()
    cut, count, met, until = cvec.cut.take(pen.path, "u64"), 0, 0, time.monotonic() + float(os.environ.get("MANY_LOOKS", "2"))
    try:
        while time.monotonic() < until:
            first, before = ended, len(moments) - 1
            cut = cvec.cut.refreshed(cut, sync=False) if count % 3 else cvec.cut.take(pen.path, "u64", sync=False)
            last = len(moments) - 1
            try:
                seen = records_of(cut)
            except Moved:
                continue
            finally:
                count += 1
            assert seen in moments[first:last + 1], f"look {count}: {len(seen)} records of no moment from {first} to {last}"
            met += first < before or first < last
    finally:
        goes_on = False
        writer.join()
    assert met > 0 and count > 50, f"{met} of {count} looks met a step"
    print(f"    {count} looks, {met} beside a step, {len(moments)} moments")


def planned(step, steps, pen, moments):
    """Does a step of one frame, behind its outcome."""
    pick, after = steps.pick, list(pen.records)
    if step == "grow":
        new = steps.new(pick.choice([1, 5, 300]))
        moments.append(after + new)
        pen.grow(new)
    elif step == "change" and after:
        start = pick.randrange(len(after))
        new = steps.new(min(pick.choice([1, 40]), len(after) - start), 1000)
        after[start:start + len(new)] = new
        moments.append(after)
        pen.change((start, new))
    elif step == "fold":
        pen.fold()
    elif step == "shrink" and not pen.live:
        length = pick.randint(len(after) // 2, len(after))
        moments.append(after[:length])
        pen.shrink(length)


if __name__ == "__main__":
    main(globals(), sys.argv[2:])
