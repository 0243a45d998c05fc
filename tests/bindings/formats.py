"""One struct has one format, whatever keeps it, and a seat of a server goes to a process of a pool: formats.py FOLDER. The program
`cvec` is found in PATH."""
import concurrent.futures
import gc
import multiprocessing
import os
import pickle
import subprocess
import sys

import numpy
from cvec import Error, File, Gone, Map, Server, Status, Vector, cut
from cvec.kinds import kind_of

PATH = os.path.join(sys.argv[1], "formats.cv")

# Of each dtype the bytes of a word in the file, by hand: 8 where the size is a multiple, else 4, 2 or 1.
WORDS = [
    ([("key", "<u4"), ("part", "<u2"), ("flag", "?"), ("rest", "u1")], 8), ([("a", "<u4"), ("b", "<f4"), ("c", "<i4")], 4), ([("half", "<f4")], 4), ("<f8", 8),
    ([("key", "<u8"), ("value", "<i8")], 16), ([("sensor", "<u8"), ("second", "<u8"), ("value", "<f8")], 24), ("V32", 32), ("V64", 64),
    ("V40", 8), ("V20", 4), ([("a", "u1"), ("b", "<u8")], 1), ([("a", "<u2"), ("b", "<u4")], 2), ("<u2", 2), ("V3", 1),
]


def rows_of(dtype, count):
    """Of which each byte is another; flags are 0 or 1."""
    dtype = numpy.dtype(dtype)
    rows = numpy.frombuffer(bytes(it * 7 % 251 for it in range(dtype.itemsize * count)), dtype=dtype).copy()
    for name in dtype.names or ():
        if dtype[name] == bool:
            rows[name] = [it % 2 == 0 for it in range(count)]
    return rows


def by_vector(dtype, rows):
    with Vector.open(PATH, dtype=dtype) as vector:
        vector.grow(rows)


def by_file(dtype, rows):
    with File.open(PATH, dtype=dtype) as file:
        file.append(rows)


def by_server(dtype, rows):
    with Server(PATH, dtype=dtype) as server:
        before = server.seats[0].look()[0]
        assert server.seats[0].grow(rows) == (0, before)
        server.seats[0].settle()


def readers(dtype):
    """What each reads."""
    with File.open(PATH, dtype=dtype) as file, File.open_to_read(PATH, dtype=dtype) as other, Map(PATH, dtype=dtype) as seen:
        assert file.shape == other.shape == seen.shape and file.dtype == seen.dtype == numpy.dtype(dtype)
        yield "file", file.read()
        yield "a part of it", numpy.concatenate([file.read(0, 3), file.read(3)])
        yield "numpy", numpy.asarray(file)
        yield "beside", other.read()
        yield "map", numpy.concatenate(list(seen.pieces()))
    yield "cut", cut.read(cut.take(PATH, numpy.dtype(dtype)))
    with Server(PATH, dtype=dtype) as server:
        yield "server", server.seats[0].read()
        yield "a part of it", numpy.concatenate([server.seats[0].piece(0, 2), server.seats[0].read(2)])
    with Vector.open(PATH, dtype=dtype) as vector:
        yield "vector", vector[:]
        yield "lent", numpy.concatenate(vector.lent())


def check_formats():
    for dtype, width in WORDS:
        writers = [by_file, by_server, by_vector]
        for create in File.create, Vector.create:
            create(PATH, dtype=dtype).close()
            with open(PATH, "rb") as file:
                assert file.read(11)[9:] == bytes([width, 0]), dtype
            rows = rows_of(dtype, 5 * len(writers))
            for at, write in enumerate(writers):
                write(dtype, rows[5 * at:5 * at + 5])
            for name, found in readers(dtype):
                assert found.dtype == numpy.dtype(dtype) and found.tobytes() == rows.tobytes(), (dtype, name)
            os.remove(PATH)


def check_arrays():
    """Of each type what is read has the dtype that is told."""
    for name in ("u8", "u16", "u32", "u64", "i32", "i64", "f32", "f64", "pair", "flagged", "bytes16", "bytes24", "bytes32", "bytes64"):
        with File.create(PATH, name) as file:
            file.append(numpy.zeros(3, file.dtype))
            assert file.read().dtype == file.dtype and len(file) == 3
        with Map(PATH, name) as seen, File.open_to_read(PATH, name) as file:
            assert [it.dtype for it in seen.pieces()] == [seen.dtype] and file.read().tolist() == list(seen.records())
        with Server(PATH, name) as server:
            assert server.seats[0].read().dtype == server.seats[0].read(3).dtype == seen.dtype
        os.remove(PATH)


def check_no_whole_rows():
    """Words that are no whole rows are refused by each, and a row that lies in two growths is read by those that copy."""
    three = [("key", "<u4"), ("value", "<f4"), ("more", "<u4")]
    with File.create(PATH, "u32") as file:
        file.append([1])
        file.append([2, 3, 4])
    for begin in (File.open, Vector.open, Map):
        try:
            begin(PATH, dtype=three)
        except ValueError:
            continue
        raise AssertionError(begin)
    with File.open(PATH, "u32") as file:
        file.append([5, 6])
    with Server(PATH, dtype=three) as server:
        assert server.seats[0].read()["key"].tolist() == server.seats[0].piece(0)["key"].tolist() == [1, 4]
    with File.open(PATH, dtype=three) as file:
        assert file.read()["key"].tolist() == [1, 4]
    with Server(PATH, "u32") as server:
        seat = server.seats[0]
        for row in ([7], [8, 9, 10], [11], [12], [13]):
            seat.grow(row)
        seat.form = kind_of("u64", three)
        assert seat.read()["key"].tolist() == [1, 4, 7, 10] and seat.piece(3, 1)["key"].tolist() == [10] and len(seat.piece(4)) == 0
    os.remove(PATH)


def grow(seat, number):
    """In another process."""
    opened, told = len(os.listdir("/dev/fd")), seat.grow([number, number + 1])
    return told, seat.settle(), len(seat.read()), opened


def check_pools():
    """Of both ways in which a process begins. Growths by turns are those of one seat, and no copy of its pipes stays."""
    File.create(PATH, "u32").close()
    grown = []
    for way in ("spawn", "fork", "forkserver"):
        context, descriptors = multiprocessing.get_context(way), []
        with Server(PATH, "u32", seats=2) as server, concurrent.futures.ProcessPoolExecutor(1, mp_context=context) as pool:
            for turn in range(3):
                number = 10 * len(grown)
                told, settled, size, opened = pool.submit(grow, server.seats[turn % 2], number).result(60)
                assert (told, settled, size) == ((turn, 2 * len(grown)), turn + 1, 2 * len(grown) + 2)
                grown.append(number)
                descriptors.append(opened)
            assert len(set(descriptors)) == 1, descriptors
            # The seat is still one here, and the server ends with it.
            assert server.seats[0].grow([number, 0]) == (3, 2 * len(grown))
            grown.append(number)
        with File.open(PATH, "u32") as file:
            assert len(file) == 2 * len(grown)
    # One that has ended goes nowhere.
    try:
        pickle.dumps(server.seats[0])
    except ValueError as fault:
        assert "ended" in str(fault)
    else:
        raise AssertionError("not refused")
    os.remove(PATH)


def check_path():
    """A program that isn't in PATH is a FileNotFoundError, and leaves no pipe."""
    File.create(PATH).close()
    before = len(os.listdir("/dev/fd"))
    path, os.environ["PATH"] = os.environ["PATH"], "/nowhere"
    try:
        Server(PATH)
    except FileNotFoundError as fault:
        assert fault.filename == "cvec"
    else:
        raise AssertionError("it was found")
    finally:
        os.environ["PATH"] = path
    gc.collect()
    assert len(os.listdir("/dev/fd")) == before
    with Server(PATH) as server:
        server.seats[0].grow([5])
        try:
            server.seats[0].grow([])
        except Error as fault:
            assert (fault.status, str(fault)) == (Status.REFUSED_NO_RECORD, "a request has at least one record")
    try:
        server.seats[0].look()
    except Gone as fault:
        assert isinstance(fault, Error) and fault.status == Status.GONE and fault.exit_status is None
    with File.open(PATH) as file:
        assert file.read().tolist() == [5]


if __name__ == "__main__":
    subprocess.run(["cvec", "--version"], check=True, stdout=subprocess.DEVNULL)
    check_formats()
    check_arrays()
    check_no_whole_rows()
    check_pools()
    check_path()
    print("one format")
