"""Tests of cvec.Vector: vector_cases.py FOLDER NAME [plain]. NAME is that of a test below. With 'plain' it runs without
numpy. What a file holds is read by the reader in tests/fuzz, which shares nothing with the library."""
import array
import collections
import contextlib
import copy
import ctypes
import datetime
import decimal
import errno
import fractions
import gc
import itertools
import math
import multiprocessing
import os
import pickle
import random
import resource
import pathlib
import signal
import struct
import subprocess
import sys
import threading
import time
import tracemalloc

if sys.argv[3:] == ["plain"]:
    sys.modules["numpy"] = None
from cvec import Error, Gone, Refused, Status, Vector, errors
from cvec.flushing import milliseconds
from cvec.library import LIB, error_of
from cvec.records import numpy
from cvec.vector import Receipt
from moments import is_interrupted
from vector_blocks import block, places_of, records_of

FOLDER = sys.argv[1]
PATH = os.path.join(FOLDER, "vector.cvec")
GREATEST = 2 ** 64 - 1
THREADS = 8


def records(type="u64"):
    return records_of(PATH, type)


def refusal(call, *words, **named):
    """The status and the text of a call that is refused."""
    try:
        call(*words, **named)
    except Error as it:
        return it.status, str(it)
    raise AssertionError("not refused")


def has_no(kind, call, *words, **named):
    """Such an exception ends the call."""
    try:
        call(*words, **named)
    except kind:
        return
    raise AssertionError(f"not refused: {words!r} {named!r}")


def run_all(jobs):
    """Runs these in threads of their own, and raises what the first of them raised."""
    faults = []

    def run(job):
        try:
            job()
        except BaseException as fault:
            faults.append(fault)

    threads = [threading.Thread(target=run, args=(job,)) for job in jobs]
    for thread in threads:
        thread.start()
    for thread in threads:
        thread.join()
    if faults:
        raise faults[0]


def begin_flusher(vector, refused):
    """A thread that commits until the vector is closed. What refuses a commit comes to this list."""

    def run():
        try:
            vector.run_flusher(0.001)
        except Error as fault:
            refused.append(fault)

    thread = threading.Thread(target=run)
    thread.start()
    return thread


# ---- what a vector is

def grows_and_reads():
    with Vector.create(PATH, seats=2) as vector:
        assert len(vector) == 0 and list(vector) == [] and list(vector[:]) == [] and vector.settled() == 0
        vector.settle()
        first, second = vector.grow([5, 7]), vector.grow(it for it in (11, GREATEST, 0))
        assert (first, second) == ((0, 0, 2), (1, 2, 3)) and second.start == 2
        assert len(vector) == 5 and vector.settled() == 0 and records() == []
        vector.settle(first)
        assert vector.settled() >= 1 and records()[:2] == [5, 7]
        vector.settle()
        assert vector.settled() == 2 and records() == [5, 7, 11, GREATEST, 0]
        vector.grow([13])
    assert records() == [5, 7, 11, GREATEST, 0, 13]
    with Vector.open(PATH, seats=1) as vector:
        assert vector.grow([17]) == (0, 6, 1)
        assert list(vector) == [5, 7, 11, GREATEST, 0, 13, 17]
    assert records()[-1] == 17
    os.remove(PATH)
    with Vector.create(os.fsencode(PATH), version=2) as vector:
        vector.grow(range(131071))
        assert refusal(vector.grow, range(131072))[0] == Status.TOO_LARGE
    with open(PATH, "rb") as file:
        assert file.read(9)[8] == 2
    assert records() == list(range(131071))


def indices_and_slices():
    row = [3 * it for it in range(100)]
    with Vector.create(PATH) as vector:
        for at in range(0, 100, 10):
            vector.grow(row[at:at + 10])
        for at in (0, 1, 99, -1, -100):
            assert vector[at] == row[at] and isinstance(vector[at], int)
        for at in (100, -101, 2 ** 70):
            has_no(IndexError, lambda: vector[at])
        has_no(TypeError, lambda: vector["1"])
        ends = (None, 0, 1, 15, 99, 100, 1000, -1, -15, -1000)
        for start in ends:
            for stop in ends:
                for step in (None, 1, 2, 7, -1, -3):
                    assert list(vector[start:stop:step]) == row[start:stop:step], (start, stop, step)
        assert list(vector) == row
        assert [list(it) for it in vector.pieces(33)] == [row[:33], row[33:66], row[66:99], row[99:]]
        has_no(ValueError, vector.pieces, 0)
        assert isinstance(vector[2:4], array.array if numpy is None else numpy.ndarray)
        assert list(vector[98:500]) == row[98:] and len(vector[500:600]) == 0
        # What begins to be read has an end, also where the vector grows meanwhile.
        pieces, seen = vector.pieces(33), iter(vector)
        next(pieces), next(seen)
        vector.grow([1])
        assert [len(it) for it in pieces] == [33, 33, 1] and len(list(seen)) == 99


def a_slice_beside_a_shrink():
    """Or a position: that of the vector of one moment. The vector is to become shorter once its size was asked for."""
    library, row = LIB, list(range(100))
    size = library.cvec_seat_size
    for at in (slice(-1, -60, -3), slice(None, None, -3), slice(80, 10, -7), slice(-1, -60, -1), slice(-60, None, 3), slice(None), -1, -30, 99):
        with Vector.create(PATH, seats=2) as vector:
            vector.grow(row)
            shrinks = threading.Thread(target=vector.resize, args=(50,))

            def size_before(*words):
                status = size(*words)
                library.cvec_seat_size = size
                shrinks.start()
                shrinks.join(0.05)
                return status

            library.cvec_seat_size = size_before
            found = vector[at]
            shrinks.join()
            assert (list(found) if isinstance(at, slice) else found) == row[at], at
            assert list(vector) == row[:50]
        os.remove(PATH)


def what_is_no_record():
    bad = [[-1], [2 ** 64], [1.0], ["1"], [None], [[1, 2]], 5, None, "12", [1, 2, GREATEST + 1], b"12345678", bytearray(8),
           memoryview(bytes(8)), array.array("q", [-1]), array.array("d", [1.0])]
    with Vector.create(PATH) as vector, vector.appender() as out:
        for row in bad:
            has_no(ValueError, vector.grow, row)
        for record in (-1, 2 ** 64, 1.0, "1", None, [1]):
            has_no(ValueError, out.push, record)
        assert out.kept == 0 and len(vector) == 0
        held = array.array("Q", bytes(8 * 200000))
        try:
            vector.grow(held)
        except Error as fault:
            assert fault.status == Status.TOO_LARGE
            held.append(3)  # neither a call nor a traceback keeps it
        vector.grow(array.array("Q", [1, 2]))
        vector.grow(array.array("q", [2 ** 63 - 1]))
        vector.grow(array.array("B", [4]))
        assert list(vector) == [1, 2, 2 ** 63 - 1, 4]
    for seats in (0, 65, -1, 65537):
        has_no(ValueError, Vector.open, PATH, seats=seats)
    has_no(ValueError, Vector.create, PATH + "2", version=3)
    has_no(ValueError, Vector.create, PATH + "2", seats=0)
    for growths in (0, -1, 536_870_905, 2 ** 64 + 8):
        has_no(ValueError, Vector.create, PATH + "2", growths=growths)
        has_no(ValueError, Vector.open, PATH, growths=growths)
    has_no(TypeError, Vector.create, PATH + "2", growths=8.0)
    has_no(ValueError, Vector.create, PATH + "\0")
    assert os.listdir(FOLDER) == ["vector.cvec"] and records() == [1, 2, 2 ** 63 - 1, 4]


def arrays():
    array_of = numpy.array
    bad = [array_of([-1]), array_of([1.0]), array_of([[1, 2]]), array_of(5), array_of(["1"]), array_of([2 ** 64], dtype=object),
           numpy.zeros(1, dtype=[("key", "<u8")]), array_of([1], dtype="m8[s]")]
    unaligned = numpy.frombuffer(bytes(3) + (9).to_bytes(8, "little"), dtype="<u8", offset=3)
    frozen = array_of([GREATEST], dtype="u8")
    frozen.flags.writeable = False
    good = [array_of([5, 7], dtype="u8"), array_of([8, 9], dtype="i8"), numpy.arange(6, dtype="u8")[::2],
            array_of([1, 2], dtype=">u8"), unaligned, frozen, array_of([3], dtype="u1"), [numpy.uint64(GREATEST), numpy.int64(4)], array_of([1], dtype=object)]
    with Vector.create(PATH) as vector:
        for row in bad:
            has_no(ValueError, vector.grow, row)
        for row in good:
            vector.grow(row)
        assert vector[:].dtype == numpy.uint64
        # A row is lent as it stands, but where C can't read it there.
        lent = [it for it in good if vector._form.lend(it)[0] is it]
        assert [id(it) for it in lent] == [id(good[0]), id(frozen)]
        with vector.appender() as out:
            out.push(numpy.uint64(GREATEST))
    assert records() == [5, 7, 8, 9, 0, 2, 4, 1, 2, 9, GREATEST, 3, GREATEST, 4, 1, GREATEST]


def arrays_with_a_mask():
    """What is masked may be anything, also what is no record; an array with a mask is refused where it masks nothing too."""
    of = numpy.ma.array
    flags = numpy.zeros(2, dtype=[("key", "u8"), ("flag", "?")])
    for name, rows in (("u64", [of([1, -5], mask=[0, 1]), of([1, 2], mask=[0, 1], dtype="u8"), of([1, 2], dtype="u8"), [numpy.ma.masked]]),
                       ("i64", [of([1, 2], mask=[0, 1], dtype="i8")]), ("u32", [of([1, 2 ** 40], mask=[0, 1]), of([1], dtype="u4")]),
                       ("flagged", [of(flags, mask=[(0, 0), (0, 1)])])):
        with Vector.create(PATH, type=name) as vector:
            for row in rows:
                has_no(ValueError, vector.grow, row)
                has_no(ValueError, vector.change, 0, row)
            assert len(vector) == 0
        os.remove(PATH)
    points = numpy.array([(1, 2.5), (3, 4.5)], dtype=[("key", "u8"), ("place", "f8")])
    with Vector.create(PATH, dtype=points.dtype) as vector, vector.appender() as out:
        for row in (of(points, mask=[(0, 0), (0, 1)]), of(points)):
            has_no(ValueError, vector.grow, row)
            has_no(ValueError, out.push, row[1])
        vector.grow(numpy.asarray(row))
    assert records("bytes16") == [0x4004000000000000 << 64 | 1, 0x4012000000000000 << 64 | 3]


def rows_of_a_dtype():
    point = numpy.dtype([("key", "<u8"), ("place", "<f8", 2), ("flag", "?"), ("rest", "V15")])
    rows = numpy.zeros(50, dtype=point)
    rows["key"], rows["place"], rows["flag"] = range(50), [(it, -it) for it in range(50)], [it % 2 for it in range(50)]
    with Vector.create(PATH, dtype=point) as vector:
        assert vector.grow(rows[:20]) == (0, 0, 20) and vector.grow(rows[20:50:3]) == (1, 20, 10)
        assert vector.grow(rows[:0:-1]) == (2, 30, 49)
        assert len(vector) == 79 and vector[20]["place"][1] == -20 and vector[-1] == rows[1]
        assert (vector[30:] == rows[:0:-1]).all() and [it["key"] for it in vector][:3] == [0, 1, 2]
        assert [len(it) for it in vector.pieces(50)] == [50, 29]
        with vector.appender(2) as out:
            out.push(rows[5])
            for record in ((1, (2, 3), 4, b""), 5, numpy.uint64(1)):
                has_no(ValueError, out.push, record)
        for row in (rows["key"], rows.reshape(5, 10), [rows[0]], rows["place"], rows[0]):
            has_no(ValueError, vector.grow, row)
    wanted = b"".join(it.tobytes() for it in (rows[:20], rows[20:50:3], rows[:0:-1], rows[5:6]))
    assert b"".join(it.to_bytes(8, "little") for it in records()) == wanted
    with Vector.open(PATH, dtype=point) as vector:
        assert vector[:].tobytes() == wanted
    with Vector.open(PATH) as vector:
        vector.grow([1])
    has_no(ValueError, Vector.open, PATH, dtype=point)
    Vector.open(PATH).close()
    for bad in ("V257", "V260", "O", [("a", "O")], ("u8", 2)):
        has_no(ValueError, Vector.open, PATH, dtype=bad)
    for other in ("u2", "V6", "V16", "V24", [("a", "u1"), ("b", "u8")]):
        assert refusal(Vector.open, PATH, dtype=other)[0] == Status.WIDTH
    # What is read is a record: numpy has a number in the machine's order of bytes, and a text without the zeros at its end.
    for good, row, bad in (("i8", [-1, 2 ** 63 - 1], numpy.uint64(1)), ("f8", [0.5, float("-inf")], numpy.float32(1)),
                           ("V256", [bytes(range(256))], numpy.void(bytes(8))), (">u8", [1, 256], numpy.int64(1)), (">f8", [2.5], numpy.int64(1)),
                           (">M8[s]", [1, 3], numpy.datetime64(1, "ms")), ("S8", [b"abc", b"", b"12345678"], numpy.bytes_(b"123456789")),
                           ("U2", ["ab", "a"], numpy.bytes_(b"a")), (">U10", ["a\0bc", "abcdefghij"], numpy.str_("abcdefghijk"))):
        os.remove(PATH)
        values = numpy.array(row, dtype=good)
        with Vector.create(PATH, dtype=good) as vector:
            vector.grow(values)
            assert vector[:].dtype == values.dtype and vector[0] == values[0]
            has_no(ValueError, vector.grow, row)
            for at, record in enumerate(vector):
                assert (vector.count(record), vector.find(record)) == (1, at), record
            with vector.appender() as out:
                out.push(vector[0])
                for record in (bad, row[0]):
                    has_no(ValueError, out.push, record)
                    has_no(ValueError, vector.count, record)
        assert b"".join(it.to_bytes(8, "little") for it in records()) == values.tobytes() + values[:1].tobytes()


def tuples_for_a_dtype():
    """Each is a record with just these values, and zeros between its fields; or it is none, and nothing is grown."""
    form = numpy.dtype([("flag", "?"), ("key", "<u8"), ("small", "<i2"), ("half", "<f4"), ("place", ">f8", 2), ("rest", "V3"), ("name", "S4"), ("when", "<M8[s]"),
                        ("inner", [("a", "u1"), ("b", "<f8")])], align=True)
    when = datetime.datetime(2024, 5, 6, 7, 8, 9)
    good = [(True, GREATEST, -2 ** 15, 0.5, (1.5, -2), b"123", b"ab", when, (255, 2.5)),
            (0, 0, 2 ** 15 - 1, math.inf, [math.nan, 0], bytes(3), b"", when, (0, 1)),
            (1, 2 ** 63, 0, math.nan, numpy.array([1, 2]), b"abc", b"abcd", when, (numpy.uint8(7), -0.0))]
    fields = [struct.pack("<?7xQh2xf", *it[:4]) + struct.pack(">2d", *it[4]) + it[5] + it[6].ljust(4, b"\0") for it in good]
    with Vector.create(PATH, dtype=form) as vector:
        assert vector.grow(good) == (0, 0, 3) and vector.grow(iter(good[:1])) == (1, 3, 1)
        with vector.appender(2) as out:
            for record in good:
                out.push(record)
        vector.change(1, good[2:])
        assert vector.count(good[0]) == 3 and vector.find(good[2]) == 1 and vector.find(good[2], 3) == 6
        assert good[0] in vector and good[2] not in vector and (1, 2) not in vector  # a NaN equals nothing
        raw, width = vector[:].tobytes(), form.itemsize
        cells = [raw[at:at + width] for at in range(0, len(raw), width)]
        for cell, wanted in zip(cells, [0, 2, 2, 0, 0, 1, 2]):
            assert cell.startswith(fields[wanted]), (cell, fields[wanted])
            # Nothing of what was in memory before is between the fields.
            assert not any(cell[it] for it in range(1, 8))
        at = form.names.index
        bad = [(name, value) for name, values in {"flag": [2, None, "1"], "key": [-1, 2 ** 64, 1.5, "1", None, b"1"], "small": [2 ** 15, -2 ** 15 - 1], "half": [0.1, 1e300, None, "1"],
                                                  "place": [1.5, (1,), (1, 2, 3), None], "rest": [b"", b"12", b"1234", "123"], "name": [b"abcde", "ab", b"a\0"],
                                                  "when": [5, "2024"], "inner": [(1,), (256, 1), 5, (1, 2, 3)]}.items() for value in values]
        for name, value in bad:
            record = good[0][:at(name)] + (value,) + good[0][at(name) + 1:]
            for call, *words in ((vector.grow, [good[0], record]), (out.push, record), (vector.change, 0, [record]), (vector.count, record)):
                has_no(ValueError, call, *words)
            assert record not in vector
        for row in (good[0], [good[0][:-1]], [good[0] + (1,)], [list(good[0])], [5], 5, None, b"123", "abc", [()], [good[0], numpy.ma.masked]):
            has_no(ValueError, vector.grow, row)
        assert refusal(vector.grow, [])[0] == Status.EMPTY and len(vector) == 7 and vector[:].tobytes() == raw
    os.remove(PATH)
    with Vector.create(PATH, dtype="<f8") as vector:
        for row in ([(1.5,)], [1.5]):
            has_no(ValueError, vector.grow, row)


def rows_with_padding():
    """The bytes between the fields are a record's too: they come along where rows are copied, and are searched for."""
    form = numpy.dtype([("flag", "?"), ("key", "<u8"), ("part", "<u2")], align=True)
    assert form.itemsize == 24
    raw = bytes(it % 251 if it % 24 else 1 for it in range(24 * 50))
    rows = numpy.frombuffer(raw, dtype=form)
    cells = [raw[at:at + 24] for at in range(0, len(raw), 24)]
    unaligned = numpy.frombuffer(b"123" + raw, dtype=form, offset=3)
    with Vector.create(PATH, dtype=form) as vector:
        for row in (rows[::3], rows[::-1], unaligned):
            vector.grow(row)
        has_no(ValueError, vector.grow, [rows[1]])
        with vector.appender(3) as out:
            for row in rows[:8]:
                out.push(row)
        wanted = cells[::3] + cells[::-1] + cells + cells[:8]
        assert [it.tobytes() for it in vector] == wanted
        for it in (0, 1, 7, 8, 49):
            assert vector.count(rows[it]) == wanted.count(cells[it]) and vector.find(rows[it], 1) == wanted.index(cells[it], 1)
        vector.change(2, rows[40:0:-7])
        wanted[2:8] = cells[40:0:-7]
        assert vector[7].tobytes() == cells[5]
    assert b"".join(it.to_bytes(24, "little") for it in records("bytes24")) == b"".join(wanted)


def width_of_file():
    with open(PATH, "rb") as file:
        return int.from_bytes(file.read(11)[9:], "little")


def has_records_of(name, width, first, more, bad, blank=None):
    """Of this type: grown, read, opened again, searched and changed."""
    if os.path.exists(PATH):
        os.remove(PATH)
    with Vector.create(PATH, type=name, version=2) as vector:
        assert vector.grow(first) == (0, 0, len(first))
        with vector.appender(2) as out:
            for record in more:
                out.push(record)
            for record in bad:
                has_no(ValueError, out.push, record)
        for record in bad:
            has_no(ValueError, vector.grow, [record])
            has_no(ValueError, vector.count, record)
        vector.settle()
        assert list(vector) == first + more and vector[0] == first[0] and vector[-1] == more[-1]
        assert width_of_file() == width
    for other, its_width in (("u32", 4), ("u64", 8), ("i64", 8), ("pair", 16), ("flagged", 9)):
        if its_width != width and (numpy or its_width in (4, 8)):
            assert refusal(Vector.open, PATH, type=other)[0] == Status.WIDTH
    with Vector.open(PATH, type=name) as vector:
        assert list(vector) == first + more
        assert vector.count(first[0]) == 1 and vector.find(more[-1]) == len(vector) - 1 and vector.find(first[0], 1) is None
        vector.change(1, more[:1])
        assert vector[1] == more[0] and vector.count(more[0]) == 2
        vector.resize(len(vector) + 2, first[1])
        assert vector[-1] == vector[-2] == first[1]
        vector.fold()
        vector.resize(1)
        vector.resize(2)
        assert list(vector) == first[:1] + [(0, False if name == "flagged" else 0) if isinstance(first[0], tuple) else 0 if blank is None else blank]


def numbers_with_a_fraction_are_equal_by_their_values():
    os.remove(PATH)
    with Vector.create(PATH, "f64") as vector:
        vector.grow([-0.0, 2.5, math.nan])
        for record, is_there in ((0.0, True), (0, True), (2.5, True), (fractions.Fraction(5, 2), True), (3, False), ("2.5", False), (None, False), (math.nan, False)):
            assert (record in vector) == is_there, record
        # By their bytes they aren't.
        assert vector.find(0.0) is None and vector.find(-0.0) == 0 and vector.count(math.nan) == 1


def rows_that_are_one_record():
    """A dtype of the size of a type of bytes is one record of the file; of another size it is words."""
    for size, type in ((1, "u8"), (2, "u16"), (3, "u8"), (6, "u16"), (12, "u32"), (16, "bytes16"), (24, "bytes24"), (32, "bytes32"), (64, "bytes64"), (40, "u64"), (72, "u64")):
        data = bytes((it * 7 + it // 256) % 256 for it in range(5 * size))
        rows = numpy.frombuffer(data, dtype=f"V{size}")
        with Vector.create(PATH, dtype=rows.dtype) as vector:
            vector.grow(rows[:3])
            with vector.appender(1) as out:
                out.push(rows[3])
            vector.change(1, rows[4:])
            assert (vector.count(rows[4]), vector.find(rows[3]), vector.find(rows[1])) == (1, 3, None)
            assert vector[:].tobytes() == data[:size] + data[4 * size:] + data[2 * size:4 * size] == b"".join(it.tobytes() for it in vector.lent())
        width = {"u8": 1, "u16": 2, "u32": 4, "u64": 8}.get(type, size)
        assert b"".join(it.to_bytes(width, "little") for it in records(type)) == data[:size] + data[4 * size:] + data[2 * size:4 * size]
        os.remove(PATH)


def records_of_each_type():
    has_records_of("u32", 4, [1, 2 ** 32 - 1], [0, 7, 8], [-1, 2 ** 32, 0.5, "a"])
    has_records_of("u64", 8, [1, 2 ** 64 - 1], [0, 7, 8], [-1, 2 ** 64])
    has_records_of("i64", 8, [-2 ** 63, 2 ** 63 - 1], [-1, 7, 8], [2 ** 63, -2 ** 63 - 1])
    with Vector.open(PATH, type="u64") as vector:
        assert vector[0] == 2 ** 63
    has_records_of("i32", 4, [-2 ** 31, 2 ** 31 - 1], [-1, 7, 8], [2 ** 31, -2 ** 31 - 1, 0.5])
    has_records_of("f32", 4, [1.5, -math.inf], [0.25, 7, 8], [0.1, 2 ** 25 + 1, "a"])
    has_records_of("f64", 8, [0.1, math.inf], [-2.5, 7, 8], [2 ** 53 + 1, None])
    has_records_of("u8", 1, [1, 255], [0, 7, 8], [-1, 256, 0.5, "a"])
    has_records_of("u16", 2, [1, 2 ** 16 - 1], [0, 7, 8], [-1, 2 ** 16, 0.5, "a"])
    has_no(ValueError, Vector.open, PATH, type="")
    has_no(ValueError, Vector.open, PATH, dtype="i8", type="i64")
    numbers_with_a_fraction_are_equal_by_their_values()
    if numpy is None:
        for name in ("pair", "flagged", "bytes16", "bytes64"):
            has_no(ValueError, Vector.open, PATH, type=name)
        return
    for size in (16, 24, 32, 64):
        has_records_of(f"bytes{size}", size, [bytes(range(size)), b"b" * size], [bytes(size), b"c" * size, b"d" * size],
                       [b"c" * (size - 1), b"c" * (size + 1), 5, "c" * size], bytes(size))
    has_records_of("pair", 16, [(1, -1), (2 ** 64 - 1, -2 ** 63)], [(0, 0), (7, 7), (8, 8)], [(-1, 0), (1, 2 ** 63), 5, (1, 2, 3), b"12", bytearray(2)])
    has_records_of("flagged", 9, [(1, True), (2 ** 64 - 1, False)], [(0, False), (7, True), (8, True)], [(-1, True), 5, b"12", memoryview(b"12")])


def arrays_of_each_type():
    for name, dtype in (("u32", "u4"), ("i64", "i8"), ("i32", "i4"), ("f32", "f4"), ("f64", "f8"), ("pair", [("key", "u8"), ("value", "i8")]), ("flagged", [("key", "u8"), ("flag", "?")])):
        values = numpy.zeros(5, dtype=dtype)
        if name not in ("pair", "flagged"):
            values[:] = [3, 1, 4, 1, 5]
        else:
            values["key"], values[values.dtype.names[1]] = [3, 1, 4, 1, 5], [1, 0, 1, 1, 0]
        if os.path.exists(PATH):
            os.remove(PATH)
        with Vector.create(PATH, type=name) as vector:
            vector.grow(values)
            assert (vector[:] == values).all() and vector[:].dtype.names == values.dtype.names
            assert (vector._form.lend(values)[0] is values) == (name not in ("pair", "flagged"))
            has_no(ValueError, vector.grow, values.reshape(5, 1))
    # Flags that are neither 0 nor 1 are true.
    form = numpy.dtype([("key", "<u8"), ("flag", "?")], align=True)
    wild = numpy.frombuffer(bytes([5] + [0] * 7 + [2] + [0] * 7), dtype=form)
    with Vector.open(PATH, type="flagged") as vector:
        vector.grow(wild)
        assert vector[-1] == (5, True)
    with open(PATH, "rb") as file:
        assert file.read()[-10:] == bytes([5] + [0] * 7 + [1, 0])


def dtype_without_numpy():
    has_no(ValueError, Vector.create, PATH, dtype="i8")
    assert not os.path.exists(PATH)


def appenders():
    with Vector.create(PATH) as vector:
        with vector.appender(3) as out:
            told = [out.push(it) for it in range(8)]
            assert out.kept == 2 and told[3] == (0, 0, 3) and told[6] == (1, 3, 3) and told.count(None) == 6
            assert len(vector) == 6
        assert len(vector) == 8 and out.flush() is None
        has_no(ValueError, vector.appender, 0)
        # What is refused is kept, and nothing more.
        out = vector.appender(150000)
        for it in range(150000):
            out.push(it)
        for call in (lambda: out.push(5), out.flush):
            assert refusal(call)[0] == Status.TOO_LARGE and out.kept == 150000 and len(vector) == 8
    assert records() == list(range(8))


def growths_are_interrupted():
    """Ctrl-C comes before C has grown, and as soon as it has: an appender grows by nothing twice, and growths are counted on."""
    library, moments = LIB, []
    grow = library.cvec_seat_grow

    def grow_interrupted(*words):
        moment = moments.pop() if moments else None
        if moment == "before":
            raise KeyboardInterrupt
        status = grow(*words)
        if moment == "behind":
            raise KeyboardInterrupt
        return status

    library.cvec_seat_grow = grow_interrupted
    with Vector.create(PATH, seats=1) as vector:
        out = vector.appender(3)
        for it in range(3):
            out.push(it)
        for moment, kept in (("before", 3), ("behind", 0)):
            moments.append(moment)
            has_no(KeyboardInterrupt, out.push, 3)
            assert out.kept == kept
        assert out.flush() is None and list(vector) == [0, 1, 2]
        out.push(4)
        moments.append("behind")
        has_no(KeyboardInterrupt, out.flush)
        assert out.kept == 0 and list(vector) == [0, 1, 2, 4]
        moments.append("behind")
        has_no(KeyboardInterrupt, vector.grow, [5])
        vector.settle()
        assert vector.settled() == 3
        moments.append("behind")
        has_no(KeyboardInterrupt, vector.grow, [6])
        vector.fold()
        assert vector.settled() == 4 and vector.grow([7]) == (4, 6, 1)
    assert records() == [0, 1, 2, 4, 5, 6, 7]


def interrupts_come_at_any_moment():
    """What a signal's handler raises ends a call, whenever it comes, and no more than that. Before 3.10 Python raises it also within
    what is to be done at the end of a call."""
    if sys.version_info < (3, 10):
        return

    class Interrupt(Exception):
        pass

    def interrupt(*_):
        raise Interrupt

    signal.signal(signal.SIGALRM, interrupt)
    by = random.Random(7)
    with Vector.create(PATH, seats=1) as vector:
        vector.stop_flusher()
        for call in (lambda: vector.grow([7]), lambda: vector.count(5), lambda: len(vector), lambda: vector.run_flusher(1), vector.fold):
            for _ in range(150):
                try:
                    signal.setitimer(signal.ITIMER_REAL, by.uniform(1e-5, 3e-4))
                    while True:
                        call()
                except Interrupt:
                    pass
                call()  # neither refused (BUSY, NOT_SO) nor waiting for ever
    assert set(records()) == {7}


def interrupted(library, name):
    """From here on Ctrl-C comes once, as soon as this call of C has returned."""
    call = getattr(library, name)

    def call_interrupted(*words):
        setattr(library, name, call)
        call(*words)
        raise KeyboardInterrupt

    setattr(library, name, call_interrupted)


def an_interrupt_comes_as_soon_as_c_has_begun():
    """The file is let go of at once, also while a traceback has what was begun. A seat of C isn't lost."""
    library = LIB
    for name, call in (("vector_create", Vector.create), ("vector_open", Vector.open), ("vector_open_or_create", Vector.open_or_create), ("seat_borrow", Vector.open),
                       ("seat_size", Vector.open), ("seat_return", Vector.open)):
        interrupted(library, "cvec_" + name)
        try:
            call(PATH, seats=1)
        except KeyboardInterrupt:
            Vector.open(PATH).close()
        else:
            raise AssertionError(f"{name} isn't interrupted")
    with Vector.open(PATH, seats=1) as vector:
        interrupted(library, "cvec_seat_borrow")
        has_no(KeyboardInterrupt, vector.grow, [0])
        assert vector.grow([1]) == (0, 0, 1)
        interrupted(library, "cvec_seat_return")
        has_no(KeyboardInterrupt, vector.grow, [2])
        assert vector.grow([3]) == (2, 2, 1)
        vector.fold()
    assert records() == [1, 2, 3]


class InterruptedLock:
    """Has a lock, as whose `with` begins or ends Ctrl-C comes once."""

    def __init__(self, owner, name, is_begin):
        self.owner, self.name, self.is_begin, self.lock = owner, name, is_begin, getattr(owner, name)
        setattr(owner, name, self)

    def _interrupt(self):
        setattr(self.owner, self.name, self.lock)
        raise KeyboardInterrupt

    def __enter__(self):
        if self.is_begin:
            self._interrupt()
        return self.lock.__enter__()

    def __exit__(self, *fault):
        self.lock.__exit__(*fault)
        self._interrupt()


def the_turn_is_interrupted():
    """As a call takes it, or has given it back: nobody waits for that call then, nor does the close."""
    signal.alarm(60)
    vector = Vector.create(PATH, seats=1)
    vector.grow([5])
    for call in (vector.fold, lambda: vector[:], vector.lent, lambda: list(vector), lambda: vector.find(5), vector.close):
        for is_begin in (True, False):
            InterruptedLock(vector, "_turn", is_begin)
            has_no(KeyboardInterrupt, call)
            if not vector.closed:
                vector.change(0, [5])
    vector.close()
    assert vector.closed and records() == [5]


def is_closed_behind(interrupt):
    """What this answers of the close of a vector. Closed once more, nothing is lost, and nobody has the file."""
    vector = Vector.create(PATH, seats=1)
    vector.stop_flusher()
    vector.run_flusher(math.inf)  # which has ended, and is waited for
    vector.grow([5])
    told = interrupt(vector.close)
    vector.close()
    with Vector.open(PATH) as again:
        assert list(again) == records() == [5]
    os.remove(PATH)
    return told


def a_close_is_interrupted_at_any_moment():
    signal.alarm(100)

    def interrupt_c(close):
        interrupted(LIB, "cvec_vector_end")
        has_no(KeyboardInterrupt, close)

    def interrupt_before(close):
        call = LIB.cvec_vector_end

        def interrupted_before(*_):
            LIB.cvec_vector_end = call
            raise KeyboardInterrupt

        LIB.cvec_vector_end = interrupted_before
        has_no(KeyboardInterrupt, close)

    is_closed_behind(interrupt_c)
    is_closed_behind(interrupt_before)
    moments = 0
    while is_closed_behind(lambda close: is_interrupted(close, moments)):
        moments += 1
    assert moments > 4


def grow_in_place(vector):
    with vector.grow_into(1) as rows:
        rows[0] = 5


def append(vector):
    with vector.appender(1) as out:
        out.push(5)
        out.push(5)


def calls_are_interrupted_at_any_moment():
    """Where there is one seat, the next call has it; and a call of the whole vector finds nobody inside."""
    signal.alarm(100)
    with Vector.create(PATH, seats=1) as vector:
        receipt = vector.grow([5])
        seat = vector.seat()
        for call in (lambda: vector.grow([5]), lambda: len(vector), lambda: vector[0], lambda: vector[::-1], lambda: list(vector), lambda: vector.lent(0, 1), lambda: vector.count(5),
                     lambda: vector.find(5), lambda: vector.settle(receipt), vector.settle, vector.settled, vector.fold, lambda: vector.change(0, [5]),
                     lambda: grow_in_place(vector), lambda: append(vector), lambda: (seat.grow([5]), seat.settle())):
            moments = 0
            while is_interrupted(call, moments):
                assert vector.grow([5]).start == len(vector) - 1 and not vector._calls and not vector._passes and not vector._loans
                moments += 1
            assert moments > 2
            vector.fold()
        vector.settle()
        assert vector.settled() == vector.grow([5]).number
    assert set(records()) == {5}


# ---- the whole vector

def the_whole_vector():
    def file():
        with open(PATH, "rb") as it:
            return it.read()

    with Vector.create(PATH, seats=1) as vector:
        first = vector.grow(range(6))
        assert vector.change(2, [12, 13, 12]) is None
        assert records() == [0, 1, 12, 13, 12, 5] and list(vector) == records()
        assert [vector.count(it) for it in (12, 5, 2, GREATEST)] == [2, 1, 0, 0]
        assert [vector.find(12, it) for it in (0, 2, 3, 4, 5, 6, 2 ** 64, 2 ** 70)] == [2, 2, 4, 4] + [None] * 4
        assert (vector.find(0), vector.find(5), vector.find(2), vector.find(0, 1)) == (0, 5, None, None)
        # What is refused, and what changes nothing, leaves the file.
        before = file()
        for start, row in ((4, [1, 2, 3]), (6, [1]), (2 ** 64, [1]), (2 ** 70, [1, 2])):
            assert refusal(vector.change, start, row)[0] == Status.OUT_OF_RANGE
        for call in (lambda: vector.resize(5), lambda: vector.resize(0, 1), vector.clear):
            assert refusal(call) == (Status.UNFOLDED, "a change isn't folded: fold first")
        for size, status in ((131078, Status.TOO_LARGE), (2 ** 32 + 1, Status.OUT_OF_RANGE), (2 ** 70, Status.OUT_OF_RANGE)):
            assert refusal(vector.resize, size, 1)[0] == status
        for call, *words in ((vector.change, -1, [1]), (vector.change, 0, [-1]), (vector.change, 0, b"12345678"), (vector.resize, -1),
                             (vector.resize, 7, -1), (vector.count, "1"), (vector.count, 2 ** 64), (vector.find, 1, -1), (vector.find, None)):
            has_no(ValueError, call, *words)
        vector.change(6, [])
        vector.resize(6, 7)
        assert file() == before and list(vector) == [0, 1, 12, 13, 12, 5]
        # Growths are counted on, and those from before are settled.
        vector.settle(first, timeout=0)
        assert vector.settled() == 1
        second = vector.grow([6, 7])
        assert second == (1, 6, 2) and vector.settled() == 1
        for number in (2, GREATEST, 2 ** 64, 2 ** 64 + 1, -1, -2 ** 64):
            assert refusal(vector.settle, second._replace(number=number))[0] == Status.OUT_OF_RANGE
        vector.resize(10, GREATEST)
        assert vector.settled() == 2 and records()[6:] == [6, 7, GREATEST, GREATEST]
        vector.resize(11)
        assert vector[10] == 0
        vector.fold()
        before = file()
        vector.fold()
        assert file() == before
        vector.resize(4)
        assert list(vector) == records() == [0, 1, 12, 13]
        vector.grow([4])
        vector.clear()
        vector.clear()
        assert len(vector) == 0 and list(vector) == records() == [] and vector.settled() == 3 and vector.find(0) is None
        for receipt in (first, second):
            vector.settle(receipt)
        assert vector.grow([5]) == (3, 0, 1)
        vector.change(0, [8])
    assert records() == [8]
    with Vector.open(PATH, seats=1) as vector:
        vector.resize(131072)
        vector.change(1, range(131071))
        assert refusal(vector.change, 0, range(131072))[0] == Status.TOO_LARGE
        assert vector.find(131070) == 131071 and vector.count(0) == 1
    assert records() == [8, *range(131071)]
    for call in (lambda: vector.change(0, [1]), lambda: vector.resize(1), vector.clear, vector.fold, vector.compact, lambda: vector.count(1),
                 lambda: vector.find(1), vector.lent, vector.grow_into(1).__enter__):
        assert refusal(call) == (Status.NOT_SO, "closed")


def rows_of_the_whole_vector():
    """Past the rows that a search reads at once."""
    point = numpy.dtype([("key", "<u8"), ("place", "<f8"), ("rest", "V24")])
    rows = numpy.zeros(10000, dtype=point)
    rows["key"], rows["place"] = range(10000), [-it for it in range(10000)]
    rows["rest"][5] = b"12345678"
    other = rows[5].copy()
    other["rest"] = b"12345679"
    with Vector.create(PATH, dtype=point) as vector:
        vector.grow(rows)
        vector.change(2, rows[5:7])
        assert (vector[:8] == rows[[0, 1, 5, 6, 4, 5, 6, 7]]).all()
        assert [vector.count(rows[it]) for it in (0, 2, 3, 5, 6, 4096, 9999)] == [1, 0, 0, 2, 2, 1, 1] and vector.count(other) == 0
        assert [vector.find(rows[5], it) for it in (0, 2, 3, 5, 6, 2 ** 70)] == [2, 2, 5, 5, None, None]
        assert [vector.find(rows[it]) for it in (4095, 4096, 9999, 2)] == [4095, 4096, 9999, None]
        assert vector.find(rows[9999], 9999) == 9999 and vector.find(other) is None
        # Words that stand in a row, but in two rows.
        assert vector.find(numpy.frombuffer(rows[7:9].tobytes()[8:48], dtype=point)[0]) is None
        for start, row in ((9999, rows[:2]), (10000, rows[:1]), (2 ** 62, rows[:1])):
            assert refusal(vector.change, start, row)[0] == Status.OUT_OF_RANGE
        for call, *words in ((vector.change, 0, [rows[0]]), (vector.change, 0, rows["key"]), (vector.count, 5), (vector.find, (1, 2, b"")),
                             (vector.resize, 10001, rows[1]), (vector.resize, 10001, 0)):
            has_no(ValueError, call, *words)
        assert refusal(vector.resize, 9)[0] == Status.UNFOLDED and len(vector) == 10000
        vector.fold()
        vector.resize(3)
        vector.resize(4)
        same = numpy.frombuffer(bytes(range(1, 9)) * 5, dtype=point)[0]
        vector.resize(6, same)
    wanted = rows[[0, 1, 5]].tobytes() + bytes(40) + same.tobytes() * 2
    assert b"".join(it.to_bytes(8, "little") for it in records()) == wanted
    for dtype, row, sought in (("i8", [1, -5, 7, -5], -5), ("f8", [0.0, -0.0, 2.5, -0.0], -0.0), ("M8[s]", [1, 3, 2, 3], 3)):
        os.remove(PATH)
        values = numpy.array(row, dtype=dtype)
        with Vector.create(PATH, dtype=dtype) as vector:
            vector.grow(values)
            assert vector.count(values[1]) == 2 and vector.find(values[1]) == 1 and vector.find(values[1], 2) == 3
            has_no(ValueError, vector.count, sought)
            vector.resize(6, values[2])
            vector.change(0, values[2:3])
            assert vector[:].tolist() == [values[2].tolist(), *values[1:].tolist(), *values[[2, 2]].tolist()]


def refused_memory_loses_nothing():
    """A call of the whole vector that C refuses before it has done anything: growths are counted on."""
    library, refused = LIB, [Status.MEMORY]
    resize = library.cvec_vector_resize
    library.cvec_vector_resize = lambda *words: refused.pop() if refused else resize(*words)
    with Vector.create(PATH, seats=2) as vector:
        first = vector.grow([5, 7])
        assert refusal(vector.resize, 1) == (Status.MEMORY, "memory was refused")
        assert list(vector) == [5, 7] and vector.settled() == 0
        second = vector.grow([9])
        assert second == (1, 2, 1) and vector.settled() == 0
        vector.settle(second)
        vector.settle(first)
        assert vector.settled() == 2
        vector.resize(1)
        assert vector.grow([11]) == (2, 1, 1)
    assert records() == [5, 11]


def a_call_of_the_whole_vector_is_interrupted():
    """Growths are counted on, though C counts anew."""
    library = LIB
    with Vector.create(PATH, seats=1) as vector:
        assert vector.grow([5]) == (0, 0, 1)
        interrupted(library, "cvec_vector_fold")
        has_no(KeyboardInterrupt, vector.fold)
        assert vector.grow([7]) == (1, 1, 1) and vector.settled() == 1
        vector.settle()
        assert vector.settled() == 2
    assert records() == [5, 7]
    # Another thread grows before and behind it.
    for seats in (3, 1):
        os.remove(PATH)
        goes_on, has_grown = threading.Event(), threading.Event()
        told = []

        def run():
            for event in (None, goes_on):
                if event:
                    event.wait()
                told.append(vector.grow([len(told)]))
                vector.settle()
                has_grown.set()

        with Vector.create(PATH, seats=seats) as vector:
            told.append(vector.grow([0]))
            thread = threading.Thread(target=run, daemon=True)
            thread.start()
            has_grown.wait()
            has_grown.clear()
            interrupted(library, "cvec_vector_fold")
            has_no(KeyboardInterrupt, vector.fold)
            assert len(vector) == 2
            goes_on.set()
            thread.join()
            told.append(vector.grow([3]))
            assert [it.number for it in told] == [0, 1, 2, 3] and vector.settled() >= 3
            vector.settle()
            assert vector.settled() == 4
        assert records() == [0, 1, 2, 3]


def a_change_that_fails_breaks_it():
    vector = Vector.create(PATH)
    receipt = vector.grow(range(300))
    vector.settle()
    _, hard = resource.getrlimit(resource.RLIMIT_FSIZE)
    resource.setrlimit(resource.RLIMIT_FSIZE, (4096, hard))
    assert refusal(vector.change, 0, [7] * 300) == (Status.DISK_WRITE, f"the file can't be written: File too large: {PATH!r}")
    # What was durable is.
    vector.settle(receipt)
    assert vector.settled() == 1
    for call in (lambda: vector.grow([1]), vector.settle, lambda: vector[0], vector.clear, vector.fold,
                 lambda: vector.change(0, [1]), lambda: vector.resize(1), lambda: vector.count(1), lambda: vector.find(1), vector.close):
        assert refusal(call)[0] == Status.BROKEN
    resource.setrlimit(resource.RLIMIT_FSIZE, (hard, hard))
    assert records() == list(range(300))
    # Where what was grown can't be committed, nothing was closed: it is read still.
    vector = Vector.open(PATH)
    resource.setrlimit(resource.RLIMIT_FSIZE, (4096, hard))
    receipt = vector.grow(range(300))
    assert refusal(vector.clear)[0] == Status.DISK_WRITE and refusal(vector.clear)[0] == Status.BROKEN
    assert len(vector) == 600 and vector.settled() == 0 and refusal(vector.settle, receipt)[0] == Status.BROKEN
    assert refusal(vector.close)[0] == Status.BROKEN
    resource.setrlimit(resource.RLIMIT_FSIZE, (hard, hard))
    assert records() == list(range(300))


def the_whole_vector_beside_threads():
    """Each call waits for those of others, and for a flusher, and none is refused."""
    receipts, over, refused = [], threading.Barrier(THREADS + 1), []

    def run(vector, name):
        for turn in range(100):
            receipts.append(vector.grow([name, turn, name + turn]))
            if turn % 10 == 0:
                vector.settle(receipts[-1])
                vector.settle(receipts[0])

    def run_and_wait(vector, name):
        try:
            run(vector, name)
        finally:
            over.wait()

    def search(vector):
        try:
            while over.n_waiting < THREADS:
                vector.count(5)
                vector.find(GREATEST)
                vector.clear()
        finally:
            over.wait()

    with Vector.create(PATH, seats=THREADS + 1) as vector:
        flusher = begin_flusher(vector, refused)
        run_all([lambda: search(vector)] + [lambda name=name: run_and_wait(vector, name) for name in range(THREADS)])
        assert sorted(it.number for it in receipts) == list(range(100 * THREADS))
        for receipt in receipts:
            vector.settle(receipt)
        vector.settle()
        assert vector.settled() == 100 * THREADS
        found = list(vector)
        assert len(found) % 3 == 0 and all(found[at] + found[at + 1] == found[at + 2] for at in range(0, len(found), 3))
        vector.clear()
        vector.grow([7])
    flusher.join()
    assert records() == [7] and refused == []


def a_call_within_a_call_is_refused():
    """As one from a signal's handler, which would wait for itself."""
    signal.alarm(60)
    size, told, within = LIB.cvec_seat_size, [], []

    def look(*words):
        calls = within.pop() if within else ()
        told.extend(refusal(call)[0] for call in calls)
        return size(*words)

    LIB.cvec_seat_size = look
    with Vector.create(PATH, seats=2) as vector:
        within.append((vector.close,))
        assert len(vector) == 0 and told == [Status.BUSY]
        within.append((vector.close, vector.clear, vector.compact, lambda: vector.resize(5)))
        assert len(vector[:]) == 0 and told == [Status.BUSY] * 5
        LIB.cvec_seat_size = size
        vector.grow([5])
        vector.change(0, [6])
    assert records() == [6]


# ---- what is lent

POINT = [("key", "<u8"), ("place", "<f8"), ("flag", "?"), ("rest", "V7")]


def forms():
    """Of each type of records: the words of `create` for it, and what makes the records of some numbers, as `grow` takes them."""
    def fields(second):
        return lambda numbers: [(it, second(it)) for it in numbers]

    def points(numbers):
        rows = numpy.zeros(len(numbers), dtype=POINT)
        rows["key"], rows["place"], rows["flag"] = numbers, [it / 2 for it in numbers], [it % 2 for it in numbers]
        return rows

    yield {"type": "u32"}, list
    yield {"type": "u64"}, lambda numbers: [GREATEST - it for it in numbers]
    yield {"type": "i64"}, lambda numbers: [-it for it in numbers]
    if numpy is not None:
        yield {"type": "pair"}, fields(lambda it: -it)
        yield {"type": "flagged"}, fields(lambda it: it % 2 == 0)
        yield {"dtype": POINT}, points
        yield {"dtype": "<f8"}, lambda numbers: numpy.array([it / 2 for it in numbers], dtype="<f8")


def address_of(rows):
    return ctypes.addressof(rows.obj) if isinstance(rows, memoryview) else rows.__array_interface__["data"][0]


def joined(pieces):
    return [it for piece in pieces for it in piece.tolist()]


def listed(records):
    return records if isinstance(records, list) else records.tolist()


def what_is_lent_stays():
    """10,000 growths by 4 threads move nothing that was lent before, and each of them is lent at its place, by its address."""
    for words, make in forms():
        with Vector.create(PATH, **words) as vector:
            vector.grow(make(range(10)))
            vector.grow(make(range(10, 13)))
            early, told = vector.lent(), []

            def run(name):
                for turn in range(2500):
                    first = name * 100000 + turn * 10
                    receipt = vector.grow(make(range(first, first + 1 + turn % 3)))
                    rows, = vector.lent(receipt.start, receipt.start + receipt.length)
                    told.append((receipt.start, first, 1 + turn % 3, address_of(rows)))

            before = [address_of(it) for it in early]
            run_all([lambda name=name: run(name) for name in range(4)])
            assert joined(early) == listed(make(range(13))) and [address_of(it) for it in early] == before
            pieces = vector.lent()
            assert [address_of(it) for it in pieces[:2]] == before and len(pieces) == 10002
            starts = itertools.accumulate(map(len, pieces))
            found = {at: (piece.tolist(), address_of(piece)) for at, piece in zip(itertools.islice(starts, 1, None), pieces[2:])}
            assert found == {start: (listed(make(range(first, first + length))), at) for start, first, length, at in told}
            # From any position on, to any other.
            whole = joined(pieces)
            for start, stop in ((0, 5), (3, 11), (9, 14), (12, 12), (5, 3), (100, 2000), (len(whole) - 1, len(whole) + 9), (len(whole), None), (2 ** 60, None), (7, None)):
                assert joined(vector.lent(start, stop)) == whole[start:stop], (start, stop)
            has_no(ValueError, vector.lent, -1)
            del early, pieces, starts
        os.remove(PATH)


def what_is_lent_is_read_alone():
    """Nobody writes the records, nor makes the array writable."""
    for words, make in forms():
        with Vector.create(PATH, **words) as vector:
            vector.grow(make([5, 7]))
            rows, = vector.lent()
            has_no(TypeError if numpy is None else ValueError, rows.__setitem__, 0, rows[1])
            for it in () if numpy is None else (rows, rows[1:], rows.base):
                has_no(ValueError, it.setflags, True)
            assert memoryview(rows).readonly and joined([rows]) == joined([vector[:]]) == listed(make([5, 7]))
            rows = it = None
        os.remove(PATH)


def alone(vector):
    """What has the vector alone."""
    return (lambda: vector.change(0, [1]), lambda: vector.resize(0), vector.clear, vector.fold, vector.compact, vector.close)


def what_is_lent_holds_the_vector():
    """Each call of the whole vector, and the close, is refused while an array lives, or a part, a view or a record of one; nothing else
    is, nor does a refused one do anything."""
    made = [lambda rows: rows, lambda rows: rows[1:], lambda rows: memoryview(rows)[1:], lambda rows: [rows[1:2], rows[:1]][1]]
    if numpy is not None:
        made += [lambda rows: rows.view("u1"), lambda rows: numpy.asarray(memoryview(rows)), lambda rows: rows[:2].reshape(2, 1)]
    with Vector.create(PATH) as vector:
        vector.grow([5, 7, 11])
        for turn, make in enumerate(made):
            kept = make(vector.lent()[0])
            before, last = vector.settled(), vector.grow([13])
            for call in alone(vector):
                has_no(BufferError, call)
            assert vector.settled() == before and vector.count(13) == turn + 1 and vector.find(11) == 2 and 7 in vector
            assert vector.grow([17]) == (last.number + 1, last.start + 1, 1) and len(vector.lent()) > 1
            del kept
            vector.fold()
        vector.change(0, [6])
        assert vector[0] == 6
    if numpy is not None:
        with Vector.create(PATH + "2", type="pair") as pairs:
            pairs.grow([(1, -1)])
            kept = pairs.lent()[0][0]
            has_no(BufferError, pairs.close)
            assert kept.tolist() == (1, -1)
            del kept


def an_exception_goes_on_where_records_are_lent():
    """Its traceback has what is lent. The vector is closed, and all of it in the file, once nobody has that."""
    def run():
        with Vector.create(PATH) as vector:
            vector.grow([5, 7])
            kept = vector.lent()
            with vector.grow_into(2) as rows:
                rows[0] = 11
                raise KeyError

    try:
        run()
    except KeyError:
        assert refusal(Vector.open, PATH)[0] == Status.IN_USE
    gc.collect()
    assert records() == [5, 7]
    with Vector.open(PATH) as vector:
        assert list(vector) == [5, 7]
    vector = Vector.open(PATH)
    kept = vector.lent()
    has_no(BufferError, vector.__exit__, None, None, None)
    vector.grow([11])
    del kept
    vector.close()


def count_and_find_need_nobody_out():
    """Neither a call that another thread is in, nor what it lends, keeps them; what is grown meanwhile isn't found in place of none."""
    signal.alarm(60)
    find = LIB.cvec_seat_find
    with Vector.create(PATH, seats=3) as vector:
        vector.grow([5, 7, 5])
        is_inside, goes_on = threading.Event(), threading.Event()
        holder = threading.Thread(target=lambda: vector._pass(lambda seat: (is_inside.set(), goes_on.wait())))
        holder.start()
        is_inside.wait()
        assert (vector.count(5), vector.find(5, 1), vector.find(6), 7 in vector, 8 in vector) == (2, 2, None, True, False)

        def find_late(*words):
            status = find(*words)
            vector.grow([9])
            return status

        LIB.cvec_seat_find = find_late
        assert vector.find(8) is None and vector.find(7) == 1 and len(vector) == 5
        LIB.cvec_seat_find = find
        goes_on.set()
        holder.join()
        # As `==` has it, also of what is no record.
        for record, is_there in ((5.0, True), (5.5, False), ("5", False), (None, False), (-1, False), (2 ** 64, False), (True, False)):
            assert (record in vector) == is_there, record
        if numpy is not None:
            assert numpy.uint64(7) in vector and numpy.float64(7) in vector
    if numpy is not None:
        with Vector.create(PATH + "2", dtype="<f8") as vector:
            vector.grow(numpy.array([-0.0, 2.5]))
            assert 0.0 in vector and numpy.float64(0.0) in vector and 2.5 in vector and numpy.float64(3) not in vector


def calls_of_c(names):
    """Counts the calls of these functions of C from now on."""
    library, counts = LIB, collections.Counter()

    def counted(name, call):
        def run(*words):
            counts[name] += 1
            return call(*words)
        return run

    for name in names:
        setattr(library, "cvec_seat_" + name, counted(name, getattr(library, "cvec_seat_" + name)))
    return counts


def no_call_is_made_for_each_record():
    """200,000 records are read by a few calls, whichever way: but in a row, and where a growth is short, C copies none. None of these
    holds any: a phase goes on."""
    row = [7 * it % 2 ** 32 for it in range(200000)]
    counts = calls_of_c(("read", "size", "pieces", "at", "find"))
    with Vector.create(PATH, growths=8) as vector:
        for at in range(0, 200000, 50000):
            vector.grow(row[at:at + 50000])
        ways = {
            "a slice": lambda: vector[5:], "all": lambda: vector[:], "backwards": lambda: vector[::-1], "each second": lambda: vector[1::2],
            "backwards by three": lambda: vector[199990:7:-3], "few": lambda: vector[3::70000], "one": lambda: vector[3::10 ** 6], "the loop": lambda: list(vector),
            "the loop backwards": lambda: reversed(vector),
        }
        wanted = {
            "a slice": row[5:], "all": row, "backwards": row[::-1], "each second": row[1::2], "backwards by three": row[199990:7:-3],
            "few": row[3::70000], "one": row[3::10 ** 6], "the loop": row, "the loop backwards": row[::-1],
        }
        if numpy is not None:
            ways["numpy"], wanted["numpy"] = lambda: numpy.asarray(vector), row
            ways["doubles"], wanted["doubles"] = lambda: numpy.asarray(vector, dtype="f8"), row
        for name, read in ways.items():
            counts.clear()
            assert list(read()) == wanted[name], name
            assert sum(counts.values()) <= 12, (name, counts)
            # What is left at the end may be short.
            is_copied = name in ("a slice", "all", "backwards", "numpy", "one", "few") or name.startswith("the loop")
            assert counts["read"] == is_copied, (name, counts)
        counts.clear()
        assert row[-1] in vector and 1 not in vector and counts["find"] == 2 and counts["read"] == 0
        # What a slice has is the caller's own.
        for it in (vector[:5], vector[::100], vector[4:0:-1]):
            it[0] = 1
            if numpy is not None:
                assert it.flags.writeable
        assert list(vector[:5]) == row[:5]
        for number in range(20):
            vector.grow([number])
        vector.fold()


# So many records have growths of which arrays are seen where they stand, and growths that C copies.
LENGTHS = [20000, 1, 2, 3, 17, 30000, 5000, *[1] * 300, 100, 70000, 4, *[2] * 90, 33000]


def passes_go_over_any_growths():
    """Slices, loops and arrays of numpy have each record in its place, whether growths are long or short, and its bytes between fields."""
    by = random.Random(11)
    for words, make in forms():
        with Vector.create(PATH, **words) as vector:
            lengths = LENGTHS if words.get("type", "")[1:] in ("32", "64") else [max(1, it // 10) for it in LENGTHS]
            for start, length in zip(itertools.accumulate([0, *lengths]), lengths):
                vector.grow(make(range(start, start + length)))
            whole = vector[:]
            size, keys = len(whole), [slice(None, None, step) for step in (2, -1, 3, -7, 1000, -30000, 66000, 10 ** 6)]
            assert whole.tolist() == listed(make(range(size))) and size == sum(lengths)
            keys += [slice(by.randrange(-size, size), by.randrange(-size, size), by.choice((1, -1, 2, -2, 9, -64, 5000))) for _ in range(60)]
            for key in keys:
                found, wanted = vector[key], whole[key]
                assert found.tolist() == wanted.tolist(), key
                assert type(found) is type(wanted) and (numpy is None or found.dtype == wanted.dtype and found.flags.writeable)
            one = vector[0]
            for found in (list(vector), [*reversed(vector)][::-1]):
                assert type(found[0]) is type(one) and [it if numpy is None or type(it) in (int, tuple) else it.tolist() for it in found] == whole.tolist()
            assert vector[size - 1] in vector and vector[size // 2] in vector
        os.remove(PATH)
    if numpy is not None:
        form = numpy.dtype([("flag", "?"), ("key", "<u8"), ("part", "<u2")], align=True)
        rows = numpy.frombuffer(bytes(it % 251 if it % 24 else 1 for it in range(24 * 9000)), dtype=form)
        with Vector.create(PATH, dtype=form) as vector:
            for at in (0, 4000, 4001, 4010):
                vector.grow(rows[at:at + 4990])
            whole = vector[:].tobytes()
            cells = [whole[at:at + 24] for at in range(0, len(whole), 24)]
            for step in (1, -1, 3, -7, 500):
                assert vector[::step].tobytes() == b"".join(cells[::step])
            for found, wanted in ((vector, cells), (reversed(vector), cells[::-1])):
                assert b"".join(it.tobytes() for it in found) == b"".join(wanted)
            # What a loop gives is the caller's own.
            for record in (next(iter(vector)), next(reversed(vector))):
                record["key"] = 5
            assert vector[:].tobytes() == whole


def short_growths_are_copied_by_c():
    """By a few calls: an array for each growth would take longer."""
    counts = calls_of_c(("read", "size", "pieces", "at", "find"))
    with Vector.create(PATH) as vector:
        for at in range(5000):
            vector.grow([at])
        seen, see = [], vector._see
        vector._see = lambda pieces, *words: (seen.extend(pieces), see(pieces, *words))[1]
        for read, wanted in ((lambda: vector[::2], range(0, 5000, 2)), (lambda: vector[::-3], range(4999, -1, -3)), (lambda: vector, range(5000)), (lambda: reversed(vector), range(4999, -1, -1))):
            counts.clear()
            assert list(read()) == list(wanted) and sum(counts.values()) <= 5, counts
        assert seen == []


def what_equals_is_found():
    """As `==` has it, wherever it stands, without a look at each record where no number equals one."""
    class Like:
        def __eq__(self, other):
            return other == 99999

    counts = calls_of_c(("read", "pieces", "find"))
    with Vector.create(PATH) as vector:
        vector.grow(range(100000))
        if numpy is not None:
            for record, is_there in ((numpy.float64(99999), True), (numpy.float32(0.5), False), (numpy.float64("inf"), False), (numpy.int8(-1), False)):
                assert (record in vector) == is_there and counts["pieces"] == counts["read"] == 0, record
        for record, is_there in ((99999, True), (99999.0, True), (fractions.Fraction(99999), True), (True, True), (99999.5, False), (fractions.Fraction(1, 2), False),
                                 (-1, False), (2 ** 64, False), (1e300, False), (math.inf, False), (-math.inf, False), (math.nan, False)):
            counts.clear()
            assert (record in vector) == is_there and counts["pieces"] == counts["read"] == 0, record
        for record, is_there in ((decimal.Decimal(99999), True), (99999 + 0j, True), (Like(), True), (None, False), ("99999", False), ((99999,), False), (b"9", False)):
            assert (record in vector) == is_there, record


def a_pass_copies_no_more_than_it_takes():
    """By the memory that Python and numpy ask for: a slice with a step has its own records, an array of other numbers these alone."""
    with Vector.create(PATH) as vector:
        for _ in range(10):
            vector.grow(array.array("Q", bytes(8 * 131000)))
        ways = [(lambda: vector[::100], 13100 * 8), (lambda: vector[::-100], 13100 * 8), (lambda: any(it for it in vector), 0), (lambda: None in vector, 0)]
        if numpy is not None:
            ways += [(lambda: numpy.asarray(vector, dtype="u1"), 1310000), (lambda: vector.__array__("f8", True), 1310000 * 8)]
        for number, (read, takes) in enumerate(ways):
            tracemalloc.start()
            found = read()
            _, most = tracemalloc.get_traced_memory()
            tracemalloc.stop()
            # A loop has the objects of some records at a time.
            assert most < takes + (65536 * 64 if takes == 0 else 200000), (number, most)
            del found


def nobody_waits_for_what_was_read():
    """A slice, a loop that is under way and an array of numpy hold nothing, nor do those that are copies of what stands in one piece."""
    with Vector.create(PATH, growths=8) as vector:
        vector.grow(range(100000))
        kept = [vector[::2], vector[::-1], vector[5:], iter(vector), reversed(vector)]
        if numpy is not None:
            kept += [numpy.asarray(vector), numpy.asarray(vector, dtype="f8"), vector.__array__(None, True)]
        assert next(kept[3]) == 0 and next(kept[4]) == 99999
        for number in range(20):
            vector.grow([number])
        vector.change(0, [7] * 100000)
        vector.fold()
        vector.clear()
        assert list(kept[0]) == list(range(0, 100000, 2)) and list(kept[1]) == list(range(99999, -1, -1)) and kept[2][0] == 5
        # What a loop hasn't come to is that of the vector then.
        assert next(kept[3]) == 1 and len(list(kept[3])) < 100000 and len(list(kept[4])) < 100000
        for found in kept[5:]:
            assert found[99999] == 99999


def records_stay_under_a_pass():
    """A call of the whole vector waits until it has ended; and what an exception within it has is lent as long as that lives."""
    signal.alarm(60)
    with Vector.create(PATH, seats=2, version=2, type="u32") as vector:
        for at in range(0, 200000, 10000):
            vector.grow(range(at, at + 10000))
        form, told = vector._form, []
        fill = form.fill
        # The first one asks C often for pieces, which are many then.
        reads = [lambda: vector[::30000], lambda: vector[::2], lambda: vector[::-3]] + ([lambda: numpy.asarray(vector, dtype="f8")] if numpy else [])
        for turn, read in enumerate(reads):
            changes = threading.Thread(target=lambda: (vector.change(0, [turn] * 200000), told.append(turn)))

            def fill_late(*words):
                if not changes.ident:
                    changes.start()
                changes.join(0.02)
                assert len(told) == turn
                fill(*words)

            form.fill = fill_late
            assert set(read()) == (set(range(0, 200000, 30000)) if turn == 0 else {turn - 1})
            changes.join()
            assert set(vector) == {turn}

        def fail(*words):
            raise KeyError

        form.fill = fail
        try:
            vector[::2]
        except KeyError:
            has_no(BufferError, vector.fold)
        else:
            raise AssertionError("not refused")
        form.fill = fill
        vector.fold()


def numpy_takes_a_vector():
    """As numpy 1 and 2 ask."""
    with Vector.create(PATH) as vector:
        for copy in (None, True, False):
            assert vector.__array__(copy=copy).tolist() == [] and vector.__array__(copy=copy).dtype == numpy.uint64
        vector.grow([5, 7])
        for rows in (vector.__array__(), vector.__array__("u8"), vector.__array__(dtype=None, copy=None), vector.__array__(copy=True), numpy.asarray(vector), numpy.array(vector)):
            rows[0] = 1
            assert rows.tolist() == [1, 7] and vector[0] == 5
        assert vector.__array__("f4").dtype == numpy.float32 and numpy.asarray(vector, dtype="i2").tolist() == [5, 7] and numpy.asarray(vector, dtype="i2").dtype == numpy.int16
        assert numpy.asarray(vector, dtype="f8").dtype == float and (numpy.add(vector, 1) == [6, 8]).all()
        # In one piece it is lent.
        rows = vector.__array__(copy=False)
        assert not rows.flags.writeable and address_of(rows) == address_of(vector.lent()[0])
        has_no(BufferError, vector.fold)
        del rows
        has_no(ValueError, vector.__array__, "i2", copy=False)
        vector.grow([11])
        has_no(ValueError, vector.__array__, copy=False)
        vector.compact()
        assert vector.__array__("u8", False).tolist() == [5, 7, 11]
    # Bytes between fields come along, also where a slice has a step.
    form = numpy.dtype([("flag", "?"), ("key", "<u8"), ("part", "<u2")], align=True)
    with Vector.create(PATH + "2", dtype=form) as vector:
        rows = numpy.frombuffer(bytes(it % 251 if it % 24 else 1 for it in range(24 * 900)), dtype=form)
        vector.grow(rows)
        assert numpy.asarray(vector).tobytes() == rows.tobytes()
        assert vector[::7].tobytes() == b"".join(it.tobytes() for it in rows[::7]) and rows[3] in vector


def each_piece_is_put_behind_the_others():
    """`compact` leaves the records, makes one array of them, and settles them."""
    for words, make in forms():
        with Vector.create(PATH, **words) as vector:
            for number in range(100):
                vector.grow(make([number]))
            assert len(vector.lent()) == 100
            vector.compact()
            assert vector.settled() == 100
            rows, = vector.lent()
            assert rows.tolist() == listed(make(range(100))) and len(rows) == 100
            del rows
            assert vector.grow(make([100])) == (100, 100, 1)
            assert joined(vector.lent()) == listed(make(range(101)))
        os.remove(PATH)


def grow_and_look(vector, count):
    for number in range(count):
        while True:
            try:
                vector.grow([number])
                break
            except Error as fault:
                assert fault.status == Status.FULL
        assert vector.lent()[-1][-1] >= 0


def a_room_of_eight():
    """The ninth growth is refused where an array lives, and goes on where none does any more, or none was lent; `compact` makes room."""
    for begin in (Vector.create, Vector.open):
        with begin(PATH, growths=8, seats=3) as vector:
            first = len(vector)
            for number in range(100):
                assert vector.grow([number]) == (number, first + number, 1)
                assert vector[first] == 0 and list(vector[first:])[-1] == number
            vector.compact()
            told = vector.grow([100])
            early = vector.lent()
            assert joined(early)[-101:] == list(range(101))
            for number in range(101, 108):
                vector.grow([number])
            with vector.appender(2) as out:
                out.push(108)
                out.push(109)
                for call in (lambda: vector.grow([108]), out.flush):
                    assert refusal(call) == (Status.FULL, "it takes no more growths while records are lent: compact it")
                assert out.kept == 2 and len(vector) == first + 108 and joined(early)[-1] == 100
                has_no(BufferError, vector.compact)
                del early
            # Nobody compacts: the growth does.
            assert vector.settled() >= 108 and vector[-1] == 109 and vector.grow([110]) == (109, first + 110, 1)
            vector.settle(told)
            for number in range(111, 131):
                assert vector.grow([number]).number == number - 1 and len(vector.lent(first)) > 0
            # By threads too: each that comes to the end of the room finds it made, by another or by itself, where no other reads.
            run_all([lambda: grow_and_look(vector, 200)] * 2)
            assert vector.grow([0]).number == 530
            found = list(vector)
        counted = collections.Counter(found[first:])
        assert len(found) == first + 532 and [counted[it] for it in (0, 99, 100, 107, 108, 109, 110, 130, 131, 199)] == [4, 3, 3, 3, 3, 3, 3, 3, 2, 2]
        assert records() == found


def threads_lend_and_change():
    """What a thread reads where it stands isn't written, moved or freed, though another changes the vector again and again."""
    ended, changed, refused, begun = threading.Event(), [], [], threading.Barrier(4)

    def look(vector):
        begun.wait()
        while not ended.is_set():
            kept = vector.lent()
            for _ in range(5):
                values = {it for piece in kept for it in piece.tolist()}
                assert len(values) == 1, values
                time.sleep(0.0002)
            del kept
            time.sleep(0.001)

    def change(vector):
        begun.wait()
        try:
            end = time.monotonic() + 30
            while (len(changed) < 100 or not refused) and time.monotonic() < end:
                try:
                    vector.change(0, [len(changed) + 1] * 3000)
                    changed.append(1)
                except BufferError:
                    refused.append(1)
                    time.sleep(0.0001)
        finally:
            ended.set()

    with Vector.create(PATH) as vector:
        vector.grow([0] * 3000)
        run_all([lambda: change(vector)] + [lambda: look(vector)] * 3)
        assert len(changed) >= 10 and refused, (len(changed), len(refused))
        assert set(vector) == {len(changed)}


# ---- its end: a fork, the collection of cycles, the end of the program

# What is reserved for a phase would be filled too: with room for few growths that is little.
SMALL = {"seats": 2, "growths": 10000}


def fill_what_is_freed():
    """So who reads that finds no records there, where malloc is glibc's (M_PERTURB). Vectors are small from then on."""
    with contextlib.suppress(AttributeError):
        ctypes.CDLL(None).mallopt(-6, 165)


def a_forked_process_reads_what_was_lent():
    """It reads, and closes what is its own; the parent's is lent as long as the parent has it, and no longer."""
    fill_what_is_freed()
    vector = Vector.create(PATH, **SMALL)
    vector.grow(range(1000))
    kept, other = vector.lent(), vector.lent(5, 6)
    with vector.grow_into(3) as rows:
        rows[0] = 5
    child = os.fork()
    if child == 0:
        signal.alarm(20)
        is_read = joined(kept) == list(range(1000)) and refusal(vector.lent)[0] == refusal(vector.fold)[0] == Status.FORKED
        del other
        vector.close()
        is_read = is_read and joined(kept) == list(range(1000))
        del kept, rows
        gc.collect()
        os._exit(0 if is_read else 1)
    assert os.waitpid(child, 0)[1] == 0
    for call in alone(vector):
        has_no(BufferError, call)
    assert joined(kept) == list(range(1000)) and other[0][0] == 5
    del kept, other, rows
    vector.change(0, [1])
    vector.close()
    assert records() == [1, *range(1, 1000), 5, 0, 0]


def what_is_lent_outlives_the_vector():
    """Nobody has the vector any more: the file is closed, and has all, with the last that is lent."""
    fill_what_is_freed()
    kept = Vector.create(PATH, **SMALL).lent()
    gc.collect()
    assert kept == [] and len(records()) == 0
    vector = Vector.open(PATH, **SMALL)
    vector.grow([5, 7])
    vector.grow([11])
    kept = vector.lent()
    block = vector.grow_into(2)
    with block as rows:
        rows[0] = 13
    del vector, block
    gc.collect()
    assert refusal(Vector.open, PATH, **SMALL)[0] == Status.IN_USE and joined(kept[:2]) == [5, 7, 11]
    part = kept.pop(0)[1:]
    del kept, rows
    assert refusal(Vector.open, PATH, **SMALL)[0] == Status.IN_USE and part[0] == 7
    del part
    with Vector.open(PATH, **SMALL) as vector:
        assert list(vector) == [5, 7, 11, 13, 0]


class Reader:
    """Is part of a cycle with what is lent, and looks at that at its end."""

    ends = []

    def __init__(self, vector, has_vector):
        self.pieces, self.me = vector.lent(), self
        if has_vector:
            self.vector, vector.reader = vector, self

    def __del__(self):
        self.ends.append(joined(self.pieces))


def cycles_of_what_is_lent_are_collected():
    """Without numpy the vector may be one of the cycle. What stands there is read as long as anything of it lives."""
    fill_what_is_freed()
    for has_vector in (False, True) if numpy is None else (False,):
        for turn in range(20):
            if os.path.exists(PATH):
                os.remove(PATH)
            vector = Vector.create(PATH, **SMALL)
            vector.grow(range(5000))
            reader = Reader(vector, has_vector)
            vector.note, reader.note = [reader] if has_vector else [], [vector] if has_vector else []
            Reader.ends.clear()
            del reader
            if has_vector:
                del vector
            gc.collect()
            assert Reader.ends == [list(range(5000))]
            if not has_vector:
                vector.close()
            Vector.open(PATH, **SMALL).close()
            assert records() == list(range(5000))


class LastGrower:
    """Is part of a cycle with a vector, and grows it at its end."""

    def __init__(self, vector):
        self.vector, vector.grower = vector, self

    def __del__(self):
        self.vector.settle(self.vector.grow([7]))


def a_vector_of_a_cycle_is_closed_behind_all_of_it():
    for turn in range(3):
        LastGrower(Vector.open_or_create(PATH, **SMALL))
        gc.collect()
        Vector.open(PATH, **SMALL).close()
        assert records() == [7] * (turn + 1)


def a_program_ends_with_what_is_lent():
    """Whatever of it lives at its end, and whoever has it: it ends well, and says nothing."""
    begin = """
import sys, threading
if sys.argv[2] == "plain":
    sys.modules["numpy"] = None
from cvec import Vector
vector = Vector.create(sys.argv[1], seats=4, growths=1000000)
vector.grow(range(1000))
"""
    ends = ["kept = vector.lent()", "vector.kept = vector.lent()", "kept = vector.lent()\ndel vector", "kept = [vector.lent(), vector]\nkept.append(kept)",
            "with vector.grow_into(5) as rows: rows[0] = 5", "block = vector.grow_into(5)\nrows = block.__enter__()",
            "kept = vector.lent()\ndef end(it=vector.lent()):\n    while True: vector.grow([int(it[0][5])])\nthreading.Thread(target=end, daemon=True).start()",
            "class Reader:\n    def __init__(self): self.kept, self.vector, self.me = vector.lent(), vector, self\n    def __del__(self): assert sum(self.kept[0]) == 499500\nreader = Reader()",
            "import atexit\natexit.register(lambda kept=vector.lent(): sum(kept[0]))", "import cvec.vector\ncvec.vector.kept = vector.lent()", "def look(kept=vector.lent()): pass"]
    for end in ends:
        words = [sys.executable, "-c", begin + end + "\n", PATH, "plain" if numpy is None else "with"]
        ended = subprocess.run(words, timeout=60, stderr=subprocess.PIPE, env={**os.environ, "MALLOC_PERTURB_": "165"})
        assert ended.returncode == 0 and ended.stderr == b"", (end, ended)
        assert records() == [] or records()[:1000] == list(range(1000)), end
        os.remove(PATH)


# ---- growth in place

def rows_are_written_in_place():
    """One growth, whose records stand where they were written; blank where nothing was."""
    for words, make in forms():
        with Vector.create(PATH, **words) as vector:
            vector.grow(make([1]))
            made = make([5, 7, 11])
            for turn in range(3):
                block = vector.grow_into(4)
                assert block.receipt is None
                with block as rows:
                    at = address_of(rows)
                    assert len(rows) == 4 and isinstance(rows, memoryview if numpy is None else numpy.ndarray)
                    assert rows.tolist() == 4 * [0 if numpy is None else numpy.zeros(1, rows.dtype)[0].tolist()]
                    rows[turn:turn + 1] = array.array(rows.format, made[turn:turn + 1]) if numpy is None else numpy.array(made[turn:turn + 1], dtype=rows.dtype)
                    assert len(vector) == 1 + 4 * turn and len(joined(vector.lent())) == 1 + 4 * turn
                assert block.receipt == (1 + turn, 1 + 4 * turn, 4)
                vector.settle(block.receipt)
                lent, = vector.lent(1 + 4 * turn)
                assert address_of(lent) == at and lent.tolist()[turn] == listed(made)[turn]
                if numpy is None:
                    has_no(ValueError, lambda: rows[0])
                else:
                    assert rows.tolist() == lent.tolist() and not rows.flags.writeable
                    has_no(ValueError, rows.__setitem__, 0, rows[1])
                    for it in (rows, rows.base):
                        has_no(ValueError, it.setflags, True)
                    it = None
                has_no(ValueError, block.__enter__)
                del lent, rows
            blank = [numpy.zeros(1, vector[:].dtype)[0].tolist()] if numpy else [0]
            found = listed(make([1]))
            for turn in range(3):
                found += blank * turn + listed(made)[turn:turn + 1] + blank * (3 - turn)
            assert vector[:].tolist() == found
        os.remove(PATH)


def a_block_that_is_left_by_an_exception_is_dropped():
    with Vector.create(PATH) as vector:
        vector.grow([5])
        for turn in range(3):
            block = vector.grow_into(100)
            try:
                with block as rows:
                    rows[0] = 7
                    raise KeyError
            except KeyError:
                assert block.receipt is None and list(vector) == [5, *range(turn)]
            has_no((ValueError, TypeError), rows.__setitem__, 0, 8)
            if numpy is not None:
                # It can be read as long as it lives, and is of no vector.
                assert rows[0] == 7 and rows.sum() == 7
                with vector.grow_into(1) as more:
                    more[0] = turn
                more = None
                vector.fold()
                assert rows[0] == 7 and vector[-1] == turn
            else:
                vector.grow([turn])
            rows = more = None
            vector.fold()
        assert list(vector) == [5, 0, 1, 2]
        # Of several behind one another nothing is left: the next is written in place.
        for _ in range(3):
            with contextlib.suppress(KeyError):
                with vector.grow_into(1) as rows:
                    raise KeyError
            rows = None
        with vector.grow_into(1) as rows:
            at = address_of(rows)
            rows[0] = 3
        assert address_of(vector.lent(4)[0]) == at and list(vector) == [5, 0, 1, 2, 3]
        # A loop over blocks takes each anew.
        for number in range(50):
            with vector.grow_into(2) as rows:
                rows[0], rows[1] = number, number
            rows = None
        assert list(vector)[5:] == [it // 2 for it in range(100)]


def what_is_kept_of_a_block_writes_no_record():
    """Another view, a memoryview or a record of the array may be written still: then the growth is a copy."""
    kept = [lambda rows: rows[1:], lambda rows: memoryview(rows), lambda rows: memoryview(rows)[2:].cast("B")]
    if numpy is not None:
        kept += [lambda rows: rows.view("u1"), lambda rows: rows.reshape(2, 2), lambda rows: numpy.asarray(memoryview(rows)), lambda rows: rows.flat, lambda rows: rows]
    else:
        kept += [lambda rows: (ctypes.c_uint64 * 4).from_buffer(rows), lambda rows: pickle.PickleBuffer(rows)]
    with Vector.create(PATH) as vector:
        for turn, keep in enumerate(kept):
            with vector.grow_into(4) as rows:
                rows[0], rows[3] = 5, 7
                it = keep(rows)
            assert list(vector[4 * turn:]) == [5, 0, 0, 7]
            try:
                (memoryview(it) if isinstance(it, pickle.PickleBuffer) else it)[0] = 9
            except (ValueError, TypeError):
                assert numpy is not None and isinstance(it, (numpy.flatiter, numpy.ndarray)), turn
            assert list(vector[4 * turn:]) == [5, 0, 0, 7] and joined(vector.lent(4 * turn)) == [5, 0, 0, 7]
            # What lives of the block is memory of its own.
            vector.fold()
            assert list(vector[4 * turn:]) == [5, 0, 0, 7]
            # Also one under no name, where a view of it is kept.
            if numpy is not None:
                with vector.grow_into(4) as other:
                    other[0] = 1
                    other = other[:1]
                other[0] = 2
                assert vector[-4] == 1
            it = rows = other = None
            vector.fold()
            vector.resize(4 * turn + 4)
    if numpy is not None:
        with Vector.create(PATH + "2", type="pair") as vector:
            with vector.grow_into(3) as rows:
                for record in rows:
                    record["key"] = 5
            record["key"] = 9
            assert vector[:].tolist() == [(5, 0)] * 3
            del rows, record


def a_block_is_refused_as_a_growth_is():
    with Vector.create(PATH, seats=1, growths=8) as vector:
        assert refusal(vector.grow_into(0).__enter__) == (Status.EMPTY, "a growth has at least one record")
        for count in (131072, 2 ** 61, 2 ** 70):
            assert refusal(vector.grow_into(count).__enter__)[0] == Status.TOO_LARGE
        has_no(ValueError, vector.grow_into, -1)
        has_no(TypeError, vector.grow_into, 1.5)
        with vector.grow_into(131071) as rows:
            rows[131070] = 5
        assert len(vector) == 131071 and vector[-1] == 5
        if numpy is not None:
            has_no(BufferError, vector.fold)
        rows = None
        # Others grow, and have the vector alone, while it is written. There is one seat, which no block keeps.
        with vector.grow_into(1) as rows:
            vector.grow([11])
            with vector.grow_into(1) as more:
                more[0] = 13
            more = None
            vector.compact()
            vector.change(len(vector) - 2, [12])
            rows[0] = 17
        rows = None
        assert list(vector[131071:]) == [12, 13, 17]
        # Once it is grown it is lent, and what has been lent keeps a phase from its end.
        for number in range(8):
            vector.grow([number])
        with vector.grow_into(1) as rows:
            rows[0] = 19
        assert vector[-1] == 19
        rows = None
        kept = vector.lent(131071)
        for _ in range(9):
            try:
                vector.grow([5])
            except Error as refused:
                assert refused.status == Status.FULL
                break
        else:
            raise AssertionError("not refused")
        block = vector.grow_into(1)

        def fill():
            with block as rows:
                rows[0] = 23

        assert refusal(fill)[0] == Status.FULL and block.receipt is None
        kept = None
        with vector.grow_into(1) as rows:
            rows[0] = 29
        assert vector[-1] == 29
        rows = None
    # One that is written where the vector is closed is no growth, and its memory is there as long as the array is.
    vector = Vector.open(PATH)
    block, before = vector.grow_into(1), len(vector)
    rows = block.__enter__()
    rows[0] = 31
    vector.close()
    assert refusal(block.__exit__, None, None, None) == (Status.NOT_SO, "closed")
    assert numpy is None or rows[0] == 31
    assert len(records()) == before
    del rows
    if numpy is not None:
        with Vector.create(PATH + "2", type="flagged") as vector:
            for flag, is_record in ((1, True), (2, False), (0, True)):
                def fill():
                    with vector.grow_into(2) as rows:
                        rows.view("u1")[8] = flag
                fill() if is_record else has_no(ValueError, fill)
                gc.collect()
            assert vector[:].tolist() == [(0, True), (0, False), (0, False), (0, False)]


def is_a_growth_or_none(vector, interrupt):
    """What this answers of a growth in place. It is made once or not at all, and the seat goes on."""
    vector.settle()
    before, block = len(vector), vector.grow_into(3)

    def fill():
        with block as rows:
            rows[0] = 5

    came = interrupt(fill)
    found = list(vector[before:])
    assert found == ([5, 0, 0] if block.receipt else []) and (came or block.receipt == (block.receipt.number, before, 3))
    vector.settle()
    assert vector.settled() == vector.grow([7]).number
    with vector.grow_into(1) as rows:
        rows[0] = 9
    del rows
    assert list(vector[before + len(found):]) == [7, 9]
    return came


def blocks_are_interrupted():
    """Ctrl-C comes at any moment of a growth in place, or as soon as C has made a call for it."""
    signal.alarm(100)
    library, moments = LIB, 0
    with Vector.create(PATH, seats=1) as vector:
        for name in ("block", "detach", "attach", "publish"):
            def interrupt_c(fill):
                interrupted(library, "cvec_seat_" + name)
                has_no(KeyboardInterrupt, fill)
                return True

            is_a_growth_or_none(vector, interrupt_c)
        while is_a_growth_or_none(vector, lambda fill: is_interrupted(fill, moments)):
            moments += 1
        assert moments > 10
        vector.fold()


def threads_grow_in_place():
    """Whole blocks, in their rows, beside threads that grow and read."""
    told = {}

    def run(vector, name):
        for turn in range(200):
            row = block(0, name, turn)
            grows = vector.grow_into(len(row))
            with grows as rows:
                if numpy is None:
                    rows[:] = array.array("Q", row)
                else:
                    rows[:] = row
            told[0, name, turn] = grows.receipt.start
            del rows
            assert list(vector[grows.receipt.start:grows.receipt.start + len(row)]) == row
            if turn % 10 == 0:
                vector.settle(grows.receipt)

    with Vector.create(PATH, seats=THREADS) as vector:
        run_all([lambda name=name: run(vector, name) for name in range(THREADS)])
        assert places_of(list(vector)) == told
        vector.fold()
    assert places_of(records()) == told


# ---- more growths than a phase has room for

MOST_GROWTHS = 1048568


def grow_often(vector, first, count):
    """So many growths of one record each, made by a loop in C (tests/bindings/often.c)."""
    often = ctypes.CDLL(os.environ["OFTEN"])
    status = vector._run(lambda seat: often.grow_often(LIB.cvec_seat_grow, seat, ctypes.c_uint64(first), ctypes.c_uint64(count)))
    assert status == 0


def a_full_phase_goes_on():
    with Vector.create(PATH, seats=1, growths=MOST_GROWTHS) as vector:
        first = vector.grow([0])
        grow_often(vector, 1, MOST_GROWTHS - 2)
        last = vector.grow([MOST_GROWTHS - 1])
        assert last == (MOST_GROWTHS - 1, MOST_GROWTHS - 1, 1) and vector.settled() == 0
        behind = vector.grow([MOST_GROWTHS])
        assert behind == (MOST_GROWTHS, MOST_GROWTHS, 1)
        # All from before is settled, and what is behind it isn't yet.
        assert vector.settled() == MOST_GROWTHS
        for receipt in (first, last):
            vector.settle(receipt, timeout=0)
        assert vector.settled() == MOST_GROWTHS
        assert refusal(vector.settle, behind._replace(number=MOST_GROWTHS + 1))[0] == Status.OUT_OF_RANGE
        vector.settle()
        assert vector.settled() == MOST_GROWTHS + 1


def threads_fill_phases():
    """Past what one phase takes, by 1, 4 and 16 threads, beside a flusher: each growth is there, those of a thread in order."""
    for threads in (1, 4, 16):
        refused, each = [], 1_200_000 // threads

        def run(vector, name):
            grow_often(vector, name << 32, each)

        with Vector.create(PATH, seats=threads, growths=MOST_GROWTHS) as vector:
            flusher = begin_flusher(vector, refused)
            run_all([lambda name=name: run(vector, name) for name in range(threads)])
        flusher.join()
        rows = collections.defaultdict(list)
        for record in records():
            rows[record >> 32].append(record & 0xffffffff)
        assert refused == [] and len(rows) == threads and all(row == list(range(each)) for row in rows.values())
        os.remove(PATH)


def phases_end_beside_threads():
    """A phase takes 150 more, where they grow, read and settle 1,600 blocks."""
    told, numbers, before = {}, {}, MOST_GROWTHS - 150

    def run(vector, name):
        for turn in range(100):
            receipt = vector.grow(block(0, name, turn))
            told[0, name, turn] = receipt.start
            numbers[receipt.start] = receipt.number
            assert list(vector[receipt.start:receipt.start + receipt.length]) == block(0, name, turn)
            if turn % 10 == name:
                vector.settle(receipt)
                assert vector.settled() > receipt.number

    with Vector.create(PATH, seats=THREADS, growths=MOST_GROWTHS) as vector:
        grow_often(vector, 0, before)
        run_all([lambda name=name: run(vector, name) for name in range(THREADS)])
        assert [numbers[at] for at in sorted(numbers)] == list(range(before, before + 100 * THREADS))
        gc.collect()
        for number in numbers.values():
            vector.settle(Receipt(number, 0, 1))
        assert vector.settled() == before + 100 * THREADS
    found = records()
    assert found[:before] == list(range(before))
    assert {key: before + at for key, at in places_of(found[before:]).items()} == told


def random_calls_beside_threads():
    """And beside a flusher: no call is refused but by the two statuses that are expected here, and growths are counted on."""
    seed = random.randrange(2 ** 32)
    print("seed", seed, file=sys.stderr)
    receipts, refused = [], []

    def make(expected, call, *words):
        try:
            call(*words)
        except Error as fault:
            assert fault.status == expected, fault

    def run(vector, name):
        by = random.Random(seed + name)
        calls = (lambda: receipts.append(vector.grow([name] * by.randrange(1, 5))),
                 lambda: vector.settle(by.choice(receipts), by.choice((None, 5))) if receipts else None,
                 vector.settle, vector.settled, lambda: vector[::2], lambda: len(vector), vector.fold,
                 lambda: vector.count(5), lambda: vector.find(9), lambda: make(Status.OUT_OF_RANGE, vector.change, 0, [1]),
                 lambda: make(Status.UNFOLDED, vector.clear))
        for call in by.choices(calls, (12, 3, *[1] * 9), k=300):
            call()

    with Vector.create(PATH, seats=THREADS, growths=100) as vector:
        flusher = begin_flusher(vector, refused)
        run_all([lambda name=name: run(vector, name) for name in range(THREADS)])
        assert sorted(it.number for it in receipts) == list(range(len(receipts)))
        vector.settle()
        assert vector.settled() == len(receipts)
        found = list(vector)
    flusher.join()
    assert records() == found and refused == []


# ---- refusals

def each_refusal():
    assert refusal(Vector.open, PATH) == (Status.DISK_OPEN, f"the file can't be opened: No such file or directory: {PATH!r}")
    assert refusal(Vector.open, FOLDER)[0] == refusal(Vector.create, "/dev/null")[0] == Status.NOT_FILE
    vector = Vector.create(PATH, seats=1)
    assert refusal(Vector.open, PATH) == (Status.IN_USE, "the file is in use") and refusal(Vector.create, PATH)[0] == Status.IN_USE
    assert refusal(vector.grow, []) == (Status.EMPTY, "a growth has at least one record")
    assert refusal(vector.grow, [1] * 131072)[0] == Status.TOO_LARGE
    receipt = vector.grow([1] * 131071)
    assert refusal(vector.settle, receipt._replace(number=1))[0] == Status.OUT_OF_RANGE
    has_no(IndexError, lambda: vector[131071])
    vector.settle()
    assert vector.settled() == 1
    # Another thread calls by the same seat.
    for _ in range(3):
        run_all([lambda: vector.settle(vector.grow([3]))])
    vector.settle(receipt)
    vector.grow([3])
    vector.settle()
    assert vector.settled() == 5 and len(vector) == 131075
    vector.close()
    vector.close()
    for call in (vector.settled, vector.settle, vector.lent, lambda: vector[0], lambda: vector.grow([1]), lambda: len(vector)):
        assert refusal(call) == (Status.NOT_SO, "closed")
    assert refusal(Vector.create, PATH) == (Status.EXISTS, "something is there already")
    assert records() == [1] * 131071 + [3] * 4
    Vector.open(PATH).grow([2])  # nobody holds the vector
    gc.collect()
    assert records()[-1] == 2
    others = [(b"", Status.UNBORN), (b"\1other than ours", Status.NOT_SEGMENT), (b"\1CVECSEG\7\10\0\0", Status.VERSION),
              (b"\1CVECSEG\1\4\0\0", Status.WIDTH), (b"\1CVECSEG\1\10\0\1\11", Status.DAMAGED)]
    for there, status in others:
        with open(PATH, "wb") as file:
            file.write(there)
        assert refusal(Vector.open, PATH)[0] == status
        with open(PATH, "rb") as file:
            assert file.read() == there


def each_status_has_the_sentence_of_c():
    with open(os.path.join(os.path.dirname(os.path.abspath(__file__)), "statuses.txt")) as lines:
        told = {int(number): text.rstrip("\n") for number, _, text in (line.split(" ", 2) for line in lines)}
    assert {int(it) for it in Status} == told.keys() - {0}
    for it in Status:
        refused, of_system = error_of(it), it in errors.OF_SYSTEM
        assert refused.args[0].startswith(told[it]) and refused.status is it and isinstance(refused, OSError) == of_system
        assert of_system or str(refused) == told[it]
    assert str(error_of(999)) == "an unknown status" and error_of(999).status == 999


def what_the_system_refused_is_an_os_error():
    """Of the module's own kind too, with the file's name, and of the kind that Python has for that errno."""
    missing, folder = os.path.join(FOLDER, "missing"), os.path.join(FOLDER, "none", "vector.cvec")
    for call, path in ((Vector.open, missing), (Vector.open, os.fsencode(missing)), (Vector.open, pathlib.Path(missing)), (Vector.create, folder), (Vector.open_or_create, folder)):
        try:
            call(path)
        except FileNotFoundError as fault:
            name = os.fspath(path)
            assert isinstance(fault, Error) and (fault.status, fault.errno, fault.filename, fault.strerror) == (Status.DISK_OPEN, errno.ENOENT, name, "No such file or directory")
            assert str(fault) == f"the file can't be opened: No such file or directory: {name!r}"
        else:
            raise AssertionError("not refused")
    below = os.path.join(missing, "vector.cvec")
    open(missing, "w").close()
    for path, number, kind in ((below, errno.ENOTDIR, OSError), (os.path.join(FOLDER, "n" * 256), errno.ENAMETOOLONG, OSError)):
        try:
            Vector.open(path)
        except OSError as fault:
            assert isinstance(fault, Error) and isinstance(fault, kind) and not isinstance(fault, FileNotFoundError) and (fault.errno, fault.filename) == (number, path)
        else:
            raise AssertionError("not refused")
    # As a user who isn't root has it.
    library = LIB
    begin = library.cvec_vector_open

    def open_denied(*words):
        ctypes.set_errno(errno.EACCES)
        return Status.DISK_OPEN

    library.cvec_vector_open = open_denied
    has_no(PermissionError, Vector.open, missing)
    library.cvec_vector_open = begin
    # What isn't the system's is none.
    with Vector.create(PATH):
        for call, path in ((Vector.open, PATH), (Vector.open, missing), (Vector.create, PATH)):
            try:
                call(path)
            except Error as fault:
                assert not isinstance(fault, OSError) and fault.errno == 0
            else:
                raise AssertionError("not refused")
    vector, (_, hard) = Vector.open(PATH), resource.getrlimit(resource.RLIMIT_FSIZE)
    resource.setrlimit(resource.RLIMIT_FSIZE, (4096, hard))
    vector.grow(range(1000))
    try:
        vector.settle()
    except OSError as fault:
        assert (fault.status, fault.errno, fault.filename) == (Status.DISK_WRITE, errno.EFBIG, PATH)
    assert refusal(vector.close)[0] == Status.BROKEN


def a_vector_shows_what_it_is():
    with Vector.create(PATH, type="u32") as vector:
        vector.grow([5, 7])
        assert (vector.path, vector.closed, vector.shape) == (PATH, False, (2,)) and repr(vector) == f"<Vector {PATH!r} of u32>"
        assert vector.dtype is None if numpy is None else vector.dtype == vector[:].dtype == numpy.uint32
        for name in ("path", "closed", "shape", "dtype"):
            has_no(AttributeError, setattr, vector, name, 1)
    assert vector.closed and vector.path == PATH and repr(vector) == f"<Vector {PATH!r} of u32, closed>"
    assert refusal(lambda: vector.shape) == (Status.NOT_SO, "closed")
    with Vector.open(pathlib.Path(PATH), type="u32") as vector, Vector.create(os.fsencode(PATH + "2")) as other:
        assert vector.path == os.fspath(pathlib.Path(PATH)) and other.path == os.fsencode(PATH + "2")
    if numpy is not None:
        with Vector.create(PATH + "3", dtype=POINT) as vector:
            assert vector.dtype == POINT == vector[:].dtype and repr(vector) == f"<Vector {PATH + '3'!r} of {numpy.dtype(POINT)}>"
            has_no(ValueError, Vector.create, PATH + "4", dtype="u64")
            has_no(ValueError, Vector.create, PATH + "4", "u32", dtype=POINT)
    # What is no type says what is wanted.
    for begin in (Vector.create, Vector.open, Vector.open_or_create):
        for word in (8, int, None) + ((numpy.dtype("u8"),) if numpy else ()):
            try:
                begin(PATH + "4", word)
            except TypeError as fault:
                assert "'u64'" in str(fault) and "dtype=" in str(fault)
            else:
                raise AssertionError("not refused")
    assert not os.path.exists(PATH + "4")


def a_vector_is_opened_or_created():
    for turn in range(3):
        with Vector.open_or_create(PATH, version=2, seats=2, growths=100) as vector:
            assert list(vector) == list(range(turn))
            assert refusal(Vector.open_or_create, PATH)[0] == Status.IN_USE
            vector.grow([turn])
    with open(PATH, "rb") as file:
        assert file.read(9)[8] == 2
    # What a stopped creation leaves is begun; what others have stays.
    for there, status in ((b"", None), (bytes(5), None), (b"\1other than ours", Status.NOT_SEGMENT), (b"\1CVECSEG\1\4\0\0", Status.WIDTH)):
        with open(PATH, "wb") as file:
            file.write(there)
        if status is None:
            Vector.open_or_create(PATH).close()
            assert records() == []
        else:
            assert refusal(Vector.open_or_create, PATH)[0] == status
            with open(PATH, "rb") as file:
                assert file.read() == there


def a_refusal_goes_to_another_process():
    """Each as it is; and a pool, which would wait for ever, has that of its process."""
    its = [error_of(Status.BUSY), Error(Status.DISK_OPEN, "it", errno.ENOENT), error_of(99), Error(Status.NOT_SO, "closed")]
    its += [Refused(Status.REFUSED_FULL, "full"), Gone("it has ended", -9)]
    for kind in (errors.FileError, errors.MissingFileError, errors.DeniedFileError):
        its.append(kind(Status.DISK_WRITE, "it", errno.ENOSPC, b"of"))
    for it in its:
        for there in (copy.copy(it), *(pickle.loads(pickle.dumps(it, protocol)) for protocol in range(pickle.HIGHEST_PROTOCOL + 1))):
            assert (type(there), there.status, there.errno, str(there)) == (type(it), it.status, it.errno, str(it))
            for name in ("filename", "strerror", "exit_status", "at"):
                assert getattr(there, name, None) == getattr(it, name, None), name
    with multiprocessing.Pool(1) as pool:
        told = pool.apply_async(Vector.open, (PATH,))
        assert refusal(told.get, 20) == (Status.DISK_OPEN, f"the file can't be opened: No such file or directory: {PATH!r}")


def no_copy_is_made():
    """It would be closed a second time in C."""
    vector = Vector.create(PATH)
    with vector.appender() as out:
        out.push(5)
        for it in (vector, vector.seat(), out):
            for make in (copy.copy, copy.deepcopy, pickle.dumps, lambda it: pickle.dumps(it, 0)):
                has_no(TypeError, make, it)
    gc.collect()
    vector.grow([7])
    vector.close()
    assert records() == [5, 7]


def is_locked_by_another():
    assert refusal(Vector.open, PATH)[0] == Status.IN_USE


# ---- threads

def threads_grow_whole_blocks():
    told = {}

    def run(vector, name):
        for turn in range(200):
            receipt = vector.grow(block(0, name, turn))
            told[0, name, turn] = receipt.start
            assert list(vector[receipt.start:receipt.start + receipt.length]) == block(0, name, turn)
            if turn % 10 == 0:
                vector.settle(receipt)
                assert vector.settled() > receipt.number

    with Vector.create(PATH, seats=THREADS) as vector:
        run_all([lambda name=name: run(vector, name) for name in range(THREADS)])
        gc.collect()
        vector.settle()
        assert places_of(records()) == told
    assert places_of(records()) == told


def more_threads_than_seats_work():
    """40 threads at a time by two seats, and by one: a call waits for one."""
    for seats in (2, 1):
        with Vector.create(PATH, seats=seats) as vector:
            begun = threading.Barrier(40)
            run_all([lambda name=name: (begun.wait(), [vector.grow([5 * name + turn]) for turn in range(5)], len(vector)) for name in range(40)])
        assert sorted(records()) == list(range(200))
        os.remove(PATH)


class Holder(threading.Thread):
    """Is inside a call by a seat of the vector until it is let go."""

    def __init__(self, vector):
        self.inside, self.goes_on = threading.Event(), threading.Event()
        super().__init__(target=lambda: vector._run(lambda seat: (self.inside.set(), self.goes_on.wait())))
        self.start()
        self.inside.wait()

    def let_go(self):
        self.goes_on.set()
        self.join()


def seconds_to_an_interrupt(call):
    """How long Ctrl-C takes, which comes after a while, to end this call."""
    signal.signal(signal.SIGINT, signal.default_int_handler)
    sent = []
    threading.Timer(0.3, lambda: (sent.append(time.monotonic()), os.kill(os.getpid(), signal.SIGINT))).start()
    has_no(KeyboardInterrupt, call)
    return time.monotonic() - sent[0]


def an_interrupt_ends_a_wait_for_a_seat():
    signal.alarm(60)
    with Vector.create(PATH, seats=1) as vector:
        for call in (lambda: vector.grow([5]), lambda: len(vector), lambda: vector[::2], lambda: vector.count(5), vector.lent):
            holder = Holder(vector)
            assert seconds_to_an_interrupt(call) < 5
            holder.let_go()
            vector.grow([7])
            vector.fold()
    assert set(records()) == {7}


def a_close_ends_a_wait_for_a_seat():
    """And waits itself for the call that has the seat."""
    vector, told = Vector.create(PATH, seats=1), []
    holder = Holder(vector)
    waiting = threading.Thread(target=lambda: told.append(refusal(vector.grow, [5])))
    closing = threading.Thread(target=lambda: (vector.close(), told.append("closed")))
    waiting.start()
    time.sleep(0.05)
    closing.start()
    waiting.join()
    assert told == [(Status.NOT_SO, "closed")]
    holder.let_go()
    closing.join()
    assert told[1:] == ["closed"] and records() == []


def a_seat_settles_its_own_growths():
    with Vector.create(PATH) as vector:
        seat, other = vector.seat(), vector.seat()
        seat.settle()
        assert vector.settled() == 0
        first, second = seat.grow([5]), other.grow([7, 11])
        assert (first, second) == ((0, 0, 1), (1, 1, 2))
        seat.settle(timeout=0)
        assert 1 <= vector.settled() <= 2
        for it in (seat, other):
            has_no(ValueError, it.settle, -1)
        other.settle()
        assert vector.settled() == 2 and refusal(seat.grow, [])[0] == Status.EMPTY
        seat.settle()
    assert refusal(seat.grow, [1]) == (Status.NOT_SO, "closed") and records() == [5, 7, 11]


def a_call_lets_other_threads_run():
    """Where each sync takes a second (LD_PRELOAD), a thread that doesn't wait for it goes on."""
    with Vector.create(PATH) as vector:
        vector.grow([5])
        thread = threading.Thread(target=vector.settle)
        begun = before = time.monotonic()
        thread.start()
        longest = 0
        while thread.is_alive():
            now = time.monotonic()
            longest, before = max(longest, now - before), now
        assert before - begun > 1.5 and longest < 0.7, (before - begun, longest)


def a_close_waits_for_calls():
    """Threads grow and settle until the vector is closed under them."""
    told = {}
    begun = threading.Barrier(THREADS + 1)

    def run(vector, name):
        turn = 0
        vector.settled()
        begun.wait()
        while True:
            try:
                receipt = vector.grow(block(0, name, turn))
            except Error as fault:
                assert (fault.status, str(fault)) == (Status.NOT_SO, "closed")
                return
            told[0, name, turn] = receipt.start
            turn += 1
            if turn % 3 == 0:
                try:
                    vector.settle(receipt)
                except Error as fault:
                    assert fault.status == Status.NOT_SO

    def end(vector):
        begun.wait()
        while len(told) < 300:
            time.sleep(0.001)
        vector.close()

    vector = Vector.create(PATH, seats=THREADS)
    run_all([lambda name=name: run(vector, name) for name in range(THREADS)] + [lambda: end(vector)])
    assert places_of(records()) == told


def a_program_ends_beside_a_thread():
    """A thread that nobody waits for is inside a call when the program ends."""
    text = """
import threading, sys
from cvec import Vector
vector = Vector.create(sys.argv[1])
begun = threading.Event()
def run():
    while True:
        vector.settle(vector.grow([5]))
        begun.set()
threading.Thread(target=run, daemon=True).start()
begun.wait()
"""
    for _ in range(10):
        ended = subprocess.run([sys.executable, "-c", text, PATH], timeout=20, stderr=subprocess.PIPE)
        assert ended.returncode == 0 and ended.stderr == b"", ended
        assert set(records()) == {5}
        os.remove(PATH)


def a_wait_has_a_deadline():
    """While a thread's commit is held (tests/bindings/syncs.c), a wait for it ends when its time has passed."""
    gate = os.environ["GATE"]
    with Vector.create(PATH) as vector:
        first = vector.grow([5])
        open(gate, "w").close()
        thread = threading.Thread(target=vector.settle, args=(first,))
        thread.start()
        while not os.path.exists(gate + ".held"):
            time.sleep(0.001)
        second = vector.grow([7])
        for words in ((None, 0), (None, 0.01), (first, 0.002), (second, 0), (second, 0.25)):
            begun = time.monotonic()
            assert refusal(vector.settle, *words)[0] == Status.LATE and words[1] <= time.monotonic() - begun < words[1] + 5
        for timeout in (-1, -0.001, math.nan):
            has_no(ValueError, vector.settle, second, timeout)
        for call in (vector.settle, lambda: vector.settle(second), lambda: vector.settle(first, 50)):
            assert seconds_to_an_interrupt(call) < 5
        assert vector.settled() == 0
        os.remove(gate)
        thread.join()
        vector.settle(second, timeout=math.inf)
        assert vector.settled() == 2
        vector.grow([11])
        vector.settle(timeout=0)  # nobody commits: it does
        assert vector.settled() == 3
    assert records() == [5, 7, 11]
    assert [milliseconds(it) for it in (0, 0.0001, 1.5, 3, 1e30)] == [0, 1, 1500, 3000, 2 ** 60]


def a_flusher_commits_what_nobody_settles():
    vector, ended = Vector.create(PATH), []

    def run(every):
        vector.run_flusher(every)
        ended.append(every)

    threads = [threading.Thread(target=run, args=(every,)) for every in (0, math.inf)]
    for thread in threads:
        thread.start()
    for number in range(9):
        vector.grow([number])
        until_settled(vector, number + 1)
    vector.close()  # which ends them
    for thread in threads:
        thread.join()
    assert sorted(ended) == [0, math.inf]
    for call in (lambda: vector.run_flusher(1), vector.stop_flusher):
        assert refusal(call) == (Status.NOT_SO, "closed")
    with Vector.open(PATH) as vector:
        has_no(ValueError, vector.run_flusher, -1)
        vector.stop_flusher()
        vector.grow([9])
        vector.run_flusher(math.inf)
        assert vector.settled() == 0
    assert records() == list(range(10))
    _, hard = resource.getrlimit(resource.RLIMIT_FSIZE)
    with Vector.open(PATH) as vector:
        resource.setrlimit(resource.RLIMIT_FSIZE, (4096, hard))
        vector.grow(range(1000))
        assert refusal(vector.run_flusher, math.inf) == (Status.DISK_WRITE, f"the file can't be written: File too large: {PATH!r}")
        assert refusal(vector.close)[0] == Status.BROKEN


def until_settled(vector, count):
    end = time.monotonic() + 30
    while vector.settled() < count:
        assert time.monotonic() < end
        time.sleep(0.001)


def threads_that_flush():
    return [it for it in threading.enumerate() if it.name == "cvec flusher"]


def a_flusher_lasts_as_long_as_its_block():
    with Vector.create(PATH, seats=1) as vector:
        for turn in range(3):
            with vector.flusher(0):
                vector.grow([2 * turn])
                until_settled(vector, 2 * turn + 1)
            assert threads_that_flush() == []
            vector.grow([2 * turn + 1])
            time.sleep(0.02)
            assert vector.settled() == 2 * turn + 1
        flusher = vector.flusher(60)
        with flusher:
            until_settled(vector, 6)
            # One of two is ended alone.
            with vector.flusher(0):
                pass
            vector.grow([6])
            assert len(threads_that_flush()) == 1 and vector.settled() == 6
        assert vector.settled() == 7  # by its end
        has_no(ValueError, flusher.__enter__)
        try:
            with vector.flusher(60):
                until_settled(vector, 7)
                vector.grow([7])
                raise KeyError
        except KeyError:
            assert vector.settled() == 8 and threads_that_flush() == []
        for seconds in (-1, math.nan):
            has_no(ValueError, vector.flusher, seconds)
        # A stop is for those that begin later too.
        with vector.flusher(60):
            vector.stop_flusher()
            vector.grow([8])
        with vector.flusher(0):
            time.sleep(0.02)
        assert vector.settled() == 8
    assert refusal(vector.flusher(1).__enter__) == (Status.NOT_SO, "closed")
    assert records() == list(range(9))
    with Vector.open(PATH) as vector:
        with vector.flusher(60):
            vector.close()
        assert threads_that_flush() == []


def a_block_of_a_flusher_reports_what_is_refused():
    """At its end, unless another exception leaves it."""
    _, hard = resource.getrlimit(resource.RLIMIT_FSIZE)
    for kind in (None, KeyError):
        vector = Vector.create(PATH)
        try:
            with vector.flusher(0):
                resource.setrlimit(resource.RLIMIT_FSIZE, (4096, hard))
                vector.grow(range(1000))
                while threads_that_flush():
                    time.sleep(0.001)
                if kind:
                    raise kind
        except kind or Error as fault:
            assert kind or (fault.status, fault.errno) == (Status.DISK_WRITE, errno.EFBIG)
        else:
            raise AssertionError("not refused")
        resource.setrlimit(resource.RLIMIT_FSIZE, (hard, hard))
        assert refusal(vector.close)[0] == Status.BROKEN
        os.remove(PATH)


def an_interrupt_ends_a_flusher_of_the_main_thread():
    """Ctrl-C, while it rests. The vector goes on, and its other flushers."""
    signal.alarm(60)
    signal.signal(signal.SIGINT, signal.default_int_handler)
    with Vector.create(PATH) as vector, vector.flusher(0.01):
        vector.grow([5])
        threading.Timer(0.3, os.kill, (os.getpid(), signal.SIGINT)).start()
        begun = time.monotonic()
        has_no(KeyboardInterrupt, vector.run_flusher, 50)
        assert time.monotonic() - begun < 10
        vector.grow([7])
        until_settled(vector, 2)
    assert records() == [5, 7]


def a_program_ends_beside_flushers():
    """However its main thread ends: what was grown is durable, and a flusher goes on as long as another thread works."""
    begin = """
import ctypes, sys, threading, time
from cvec import Vector
vector = Vector.create(sys.argv[1])
ctypes.pythonapi.Py_IncRef(ctypes.py_object(vector))  # its own end commits nothing
vector.grow([5])
def rest():
    while not vector.settled(): time.sleep(0.001)
    vector.grow([7])
"""
    by_thread = "threading.Thread(target=vector.run_flusher, args=(60,)).start()\nrest()\n"
    by_block = "with vector.flusher(60):\n    rest()\n    "
    # The thread is left, as where an exception comes before its block's end.
    left = "flusher = vector.flusher(60)\nflusher.__enter__()\nrest()\n"
    worker = """
def work():
    while threading.main_thread().is_alive(): time.sleep(0.001)
    time.sleep(0.5)
    receipt, end = vector.grow([7]), time.monotonic() + 20
    while vector.settled() <= receipt.number and time.monotonic() < end: time.sleep(0.001)
    print(vector.settled())
threading.Thread(target=work).start()
threading.Thread(target=vector.run_flusher, args=(0.01,)).start()
"""
    cases = [(by_thread + "raise KeyError", 1, "KeyError"), (by_block + "raise KeyError", 1, "KeyError"), (left + "raise KeyError", 1, "KeyError"), (left, 0, ""),
             (by_thread + "import os, signal; os.kill(os.getpid(), signal.SIGINT); time.sleep(60)", -signal.SIGINT, "KeyboardInterrupt"),
             (by_block + "import os, signal; os.kill(os.getpid(), signal.SIGINT); time.sleep(60)", -signal.SIGINT, "KeyboardInterrupt"),
             ("threading.Timer(0.3, __import__('os').kill, (__import__('os').getpid(), 2)).start(); vector.grow([7]); vector.run_flusher(60)", -signal.SIGINT, "KeyboardInterrupt"),
             (by_thread.replace("))", "), daemon=True)", 1) + "vector.settle()", 0, ""), (worker, 0, "")]
    for text, status, last in cases:
        begun = time.monotonic()
        ended = subprocess.run([sys.executable, "-c", begin + text, PATH], timeout=60, stdout=subprocess.PIPE, stderr=subprocess.PIPE)
        assert (ended.returncode, ended.stderr.decode().strip().rpartition("\n")[2]) == (status, last), (text, ended)
        assert records() == [5, 7] and time.monotonic() - begun < 20, text
        assert ended.stdout == (b"2\n" if text == worker else b"")
        os.remove(PATH)


def a_vector_that_is_given_up_ends_its_flusher():
    for is_cycle in (False, True):
        vector = Vector.create(PATH)
        flusher = vector.flusher(60)
        flusher.__enter__()
        vector.grow([5])
        if is_cycle:
            vector.note = flusher
        thread, = threads_that_flush()
        del vector, flusher
        # It has the vector while it commits.
        end = time.monotonic() + 20
        while thread.is_alive() and time.monotonic() < end:
            gc.collect()
            thread.join(0.01)
        assert not thread.is_alive()
        gc.collect()
        Vector.open(PATH).close()
        assert records() == [5]
        os.remove(PATH)


def a_forked_process_leaves_the_block_of_a_flusher():
    with Vector.create(PATH) as vector:
        child = None
        try:
            with vector.flusher(0):
                vector.grow([5])
                child = os.fork()
                if child == 0:
                    signal.alarm(20)
        finally:
            if child == 0:
                os._exit(0 if sys.exc_info()[0] is None else 1)
        assert os.waitpid(child, 0)[1] == 0
        vector.grow([7])
    assert records() == [5, 7]


def a_flusher_may_be_late():
    """One that has begun, and comes to the library when the vector is closed: it ends, and has nothing to commit."""
    flush, begun, closed, told = LIB.cvec_vector_flush, threading.Event(), threading.Event(), []

    def flush_late(*words):
        begun.set()
        closed.wait()
        told.append(flush(*words))
        return told[0]

    LIB.cvec_vector_flush = flush_late
    vector = Vector.create(PATH)
    thread = threading.Thread(target=vector.run_flusher, args=(math.inf,))
    thread.start()
    begun.wait()
    vector.grow([5])
    vector.close()
    Vector.open(PATH).close()
    closed.set()
    thread.join()
    assert told == [Status.NOT_SO] and records() == [5]


# ---- a process that is forked, and a device that is full

def a_forked_process_is_refused():
    told, goes_on = os.pipe(), os.pipe()
    vector = Vector.create(PATH, seats=2)
    seat = vector.seat()
    seat.grow([5])
    vector._turn.acquire()  # as a thread that has it at the fork
    child = os.fork()
    if child == 0:
        signal.alarm(20)
        calls = (vector.settle, vector.settled, lambda: vector.run_flusher(1), vector.flusher(1).__enter__, vector.stop_flusher, lambda: vector.grow([6]), lambda: len(vector), lambda: vector[0],
                 seat.settle, lambda: seat.grow([7]), lambda: vector[0:1], lambda: list(vector), vector.clear, vector.fold, lambda: vector.change(0, [1]),
                 lambda: vector.resize(0), lambda: vector.count(5), lambda: vector.find(5), vector.compact, vector.lent, vector.grow_into(1).__enter__)
        refused = all(refusal(call)[0] == Status.FORKED for call in calls)
        vector.close()
        vector.close()
        os.write(told[1], b"1" if refused else b"0")
        os.close(goes_on[1])
        os.read(goes_on[0], 1)
        os._exit(0)
    os.close(told[1])
    vector._turn.release()
    assert os.read(told[0], 1) == b"1", "a forked process isn't refused"
    vector.grow([8])
    vector.close()
    # The child has let go of the file, and lives.
    with Vector.open(PATH) as again:
        again.grow([9])
    os.close(goes_on[1])
    assert os.waitpid(child, 0)[1] == 0
    assert records() == [5, 8, 9]


def a_forked_process_with_its_parents_number_is_refused():
    """As the first one of a namespace may have it."""
    number = os.getpid()
    os.getpid = lambda: number
    a_forked_process_is_refused()


def a_close_that_is_interrupted_is_made_again():
    """Ctrl-C comes while it waits for a pass over the records, and for who has the whole vector."""
    signal.alarm(60)
    vector = Vector.create(PATH)
    vector.grow([5])
    inside, goes_on = threading.Event(), threading.Event()
    for hold in (lambda: vector._pass(lambda seat: (inside.set(), goes_on.wait())), lambda: vector._whole(lambda at: (inside.set(), goes_on.wait(), 0)[2])):
        inside.clear()
        goes_on.clear()
        thread = threading.Thread(target=hold)
        thread.start()
        inside.wait()
        assert seconds_to_an_interrupt(vector.close) < 5
        assert not vector.closed and refusal(Vector.open, PATH)[0] == Status.IN_USE
        goes_on.set()
        thread.join()
    vector.close()
    with Vector.open(PATH) as again:
        assert list(again) == [5]


def a_full_device_leaves_what_is_settled():
    vector = Vector.create(PATH)
    _, hard = resource.getrlimit(resource.RLIMIT_FSIZE)
    resource.setrlimit(resource.RLIMIT_FSIZE, (4096, hard))
    settled = 0
    try:
        while True:
            vector.grow(block(0, 1, settled))
            vector.settle()
            settled += 1
    except Error as fault:
        assert (fault.status, fault.errno, str(fault)) == (Status.DISK_WRITE, errno.EFBIG, f"the file can't be written: File too large: {PATH!r}")
    assert vector.settled() == settled > 3
    for call in (lambda: vector.grow([1]), vector.settle, vector.close):
        assert refusal(call)[0] == Status.BROKEN
    assert refusal(vector.settled) == (Status.NOT_SO, "closed")
    resource.setrlimit(resource.RLIMIT_FSIZE, (hard, hard))
    kept = [it for turn in range(settled) for it in block(0, 1, turn)]
    assert records() == kept
    with Vector.open(PATH) as again:
        again.grow([1])
    assert records() == kept + [1]


TESTS = {name: it for name, it in globals().items() if callable(it) and getattr(it, "__module__", "") == "__main__"}
TESTS[sys.argv[2]]()
print("with numpy" if numpy else "without numpy")
