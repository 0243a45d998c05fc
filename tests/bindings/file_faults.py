"""A test of cvec.File and cvec.Map: what isn't a record is refused, a read ends, threads lose nothing, a forked process appends nothing, what is closed
is let go, and what is no file isn't mapped: file_faults.py FOLDER [plain]. With 'plain' it does so without numpy."""
import array
import copy
import errno
import fractions
import gc
import multiprocessing
import os
import pathlib
import pickle
import signal
import struct
import sys
import threading

if sys.argv[2:] == ["plain"]:
    sys.modules["numpy"] = None
import cvec
from cvec.library import LIB, Fault, error_of
from cvec.records import IN_C, IN_FILE, numpy

PATH = os.path.join(sys.argv[1], "faults.cv")
THREADS, GROWTHS = 4, 25

GOOD = {
    "u8": [0, 255],
    "u16": [0, 2 ** 16 - 1],
    "u32": [0, 2 ** 32 - 1],
    "u64": [0, 2 ** 63, 2 ** 64 - 1],
    "i32": [-2 ** 31, 2 ** 31 - 1],
    "i64": [-2 ** 63, 2 ** 63 - 1],
    # The least and the greatest of each.
    "f32": [1.5, 2.0 ** -149, float("-inf"), (2 - 2.0 ** -23) * 2.0 ** 127],
    "f64": [0.1, 2.0 ** -1074, float("inf"), sys.float_info.max],
    "pair": [(2 ** 64 - 1, -2 ** 63), (0, 2 ** 63 - 1)],
    "flagged": [(2 ** 64 - 1, True), (0, False)],
    # With zeros at the end, which a text would lose.
    "bytes16": [bytes(range(16)), bytes(16), b"\xff" * 15 + b"\0"],
    "bytes24": [bytes(range(24)), bytes(24), b"\xff" * 23 + b"\0"],
    "bytes32": [bytes(range(32)), bytes(32), b"\xff" * 31 + b"\0"],
    "bytes64": [bytes(range(64)), bytes(64), b"\xff" * 63 + b"\0"],
}


def no_bytes(width):
    """Rows of what isn't so many bytes."""
    return [[bytes(width - 1)], [bytes(width + 1)], [bytes(width), bytes(width - 1)], [bytes(2 * width)], [b""], bytes(width), b"",
            bytearray(width), memoryview(bytes(width)), ["0" * width], ["00" * width], [bytearray(width)], [(bytes(width),)],
            [[0] * width], [0], [None], 1, "0" * width]


def nan_of(payload):
    """A number of 64 bits that is none, and quiet."""
    return struct.unpack("<d", struct.pack("<Q", 0x7FF8 << 48 | payload))[0]


# A byte is no number of its own, and two are no record with two fields.
BYTES = [b"12345678", bytearray(8), memoryview(bytes(8)), memoryview(bytes(8)).cast("b"), b"", [b"1"], [bytearray(1)]]
TWO_BYTES = [[b"12"], [(1, 2), b"12"], (b"12", (1, 2)), [bytearray(2)], [memoryview(bytes(2))], {b"12": 3}]

BAD = {
    # A row of bytes is one of u8.
    "u8": [[-1], [256], [1.0], ["1"], [None], 1, [b"1"], [bytearray(1)], memoryview(b"\xff").cast("b"), memoryview(b"1").cast("c")],
    "u16": [[-1], [2 ** 16], [1.0], *BYTES],
    "u32": [[-1], [2 ** 32], [1.0], ["1"], [[1, 2]], [None], 1, *BYTES],
    "u64": [[-1], [2 ** 64], [1.5], [1, 2 ** 64 + 1], [(1, 2)], memoryview(bytes(64)).cast("Q", (2, 4)), *BYTES],
    "i32": [[2 ** 31], [-2 ** 31 - 1], [1.0], *BYTES],
    "i64": [[2 ** 63], [-2 ** 63 - 1], [1.0], *BYTES],
    # Also what would be rounded: a number, and the bits of a NaN.
    "f32": [[0.1], [2.0 ** -150], [2.0 ** 128], [2 ** 24 + 1], [1.5, 0.1], ["1"], [None], 1, [(1.0,)], [nan_of(2 ** 29 - 1)], *BYTES],
    "f64": [[2 ** 53 + 1], [10 ** 400], [fractions.Fraction(1, 3)], ["1"], [None], 1.5, *BYTES],
    "pair": [[(1, 2 ** 63)], [(-1, 1)], [(1.0, 1)], [(1,)], [(1, 2, 3)], [1, 2], *BYTES, *TWO_BYTES],
    "flagged": [[(2 ** 64, True)], [(-1, True)], [True], *BYTES, *TWO_BYTES],
    **{f"bytes{width}": no_bytes(width) for width in (16, 24, 32, 64)},
}


def made(kind):
    if os.path.exists(PATH):
        os.remove(PATH)
    return cvec.File.create(PATH, kind)


def listed(kind):
    with cvec.File.open(PATH, kind) as file:
        return file.read().tolist() if numpy else file.read()


def check_refused(file, rows):
    for row in rows:
        try:
            file.append(row)
        except ValueError:
            continue
        raise AssertionError(f"appended: {row!r}")


def check_rows():
    for kind, row in GOOD.items():
        with made(kind) as file:
            assert len(file.read()) == 0
            check_refused(file, BAD[kind])
            file.append(it for it in row)
            check_refused(file, BAD[kind])
        assert listed(kind) == row, kind
        with cvec.Map(PATH, kind) as seen:
            assert list(seen.records()) == row, kind
        with cvec.File.open(PATH, kind) as file:
            assert len(file.read(1)) == len(row) - 1 and len(file.read(5)) == len(file.read(0, 0)) == 0
            assert refusal_of(file.read, -1) == "a position is below 0"
    with made("flagged") as file:
        file.append([(1, 5), (2, 0)])
    assert listed("flagged") == [(1, True), (2, False)]
    # A view of numbers is a row of them, as the pieces of a map are.
    with made("u32") as file:
        file.append(memoryview(array.array("I", [5, 7, 11])))
        with cvec.Map(PATH, "u32") as seen:
            file.append(list(seen.pieces())[0])
    assert listed("u32") == [5, 7, 11] * 2
    for row in (b"\5\xff", bytearray(b"\5\xff"), memoryview(b"\5\xff")):
        with made("u8") as file:
            file.append(row)
            with cvec.Map(PATH, "u8") as seen:
                file.append(list(seen.pieces())[0])
        assert listed("u8") == [5, 255] * 2
    # Whole numbers too, where they aren't rounded.
    with made("f64") as file:
        file.append([2 ** 53, -3, True, fractions.Fraction(1, 4)])
    assert listed("f64") == [2.0 ** 53, -3.0, 1.0, 0.25]


def flags(numbers):
    """Flags that are seen in other bytes."""
    seen = numpy.zeros(len(numbers), dtype=[("key", "<u8"), ("flag", "?")])
    seen["flag"] = numpy.array(numbers, dtype="u1").view("?")
    return seen


def check_arrays():
    array = numpy.array
    with made("u32") as file:
        check_refused(file, [array([2 ** 32]), array([-1]), array([1.0]), array([[1, 2]]), array(1), array(["1"]),
                             flags([1]), array([2 ** 64], dtype=object), array([1], dtype="m8[s]")])
        file.append(array([7, 8, 9, 10], dtype=">i8")[::2])
        file.append(array([11], dtype=object))
    assert listed("u32") == [7, 9, 11]
    for kind, row in GOOD.items():
        with made(kind) as file:
            file.append(array(row, dtype=IN_FILE[kind].dtype))
            # Of tuples numpy makes an array with two dimensions.
            if not isinstance(row[0], tuple):
                file.append(array(row, dtype=object))
        assert listed(kind) == row * (1 if isinstance(row[0], tuple) else 2), kind
    with made("i64") as file:
        check_refused(file, [array([2 ** 63], dtype="u8"), array([1, 2 ** 63])])
    for kind, rows in (("u8", [array([256]), array([-1]), array([1.0]), array([-1], dtype="i1")]),
                       ("u16", [array([2 ** 16]), array([-1])]),
                       ("i32", [array([2 ** 31]), array([-2 ** 31 - 1]), array([2 ** 31], dtype="u4")])):
        with made(kind) as file:
            check_refused(file, rows)
            file.append(array(GOOD[kind]))
        assert listed(kind) == GOOD[kind]
    with made("pair") as file:
        check_refused(file, [array([(1, 2)], dtype=[("value", "<i8"), ("key", "<u8")]), array([1, 2]), flags([1]),
                             array([(1, 2 ** 63)], dtype=[("key", "<u8"), ("value", "<u8")]), array([[1, 2], [3, 4]])])
        file.append(array([(1, 2), (3, 4)], dtype=[("key", "u1"), ("value", "i2")]))
    assert listed("pair") == [(1, 2), (3, 4)]
    assert IN_C["flagged"].pack(flags([255, 0, 2]))[8::16] == b"\1\0\1"
    with made("flagged") as file:
        file.append(flags([255, 0, 2]))
        with cvec.Map(PATH, "flagged") as seen:
            file.append(list(seen.pieces())[0])
    assert listed("flagged") == [(0, True), (0, False), (0, True)] * 2


def check_arrays_of_floats():
    """What would be rounded is refused; else numbers of any width and order are taken, and all bits are kept."""
    array = numpy.array
    nans = array([0x7FC12345, 0x7F800001, 0xFFFFFFFF], dtype="<u4").view("<f4")
    with made("f32") as file:
        check_refused(file, [array([0.1]), array([1.5, 2.0 ** 128]), array([2 ** 24 + 1]), array([1.5], dtype="g"), array([1j]),
                             array(["1"]), array([[1.5]]), array([1], dtype="m8[s]"), array([nan_of(1)]),
                             array([(1.5,)], dtype=[("key", "<f4")])])
        assert len(file) == 0
        file.append(nans)
        file.append(nans.astype(">f4")[::2])
        assert file.read().dtype == "<f4" and file.read().tobytes() == nans.tobytes() + nans[::2].tobytes()
        with cvec.Map(PATH, "f32") as seen:
            assert b"".join(piece.tobytes() for piece in seen.pieces()) == file.read().tobytes()
    with made("f32") as file:
        file.append(array([0.5, -0.0, nan_of(2 ** 29)], dtype=">f8"))
        file.append(array([0.5], dtype="f2"))
        file.append(array([2 ** 24, -1]))
        file.append(array([True, False]))
        bits = [0x3F000000, 0x80000000, 0x7FC00001, 0x3F000000, 0x4B800000, 0xBF800000, 0x3F800000, 0]
        assert file.read().tobytes() == array(bits, dtype="<u4").tobytes()
    with made("f64") as file:
        check_refused(file, [array([2 ** 53 + 1]), array([2 ** 64 - 1], dtype="u8"), array([2 ** 63 - 1])])
        file.append(array([0.1, 2.5]))
        file.append(array([0.1], dtype="f4"))
    assert listed("f64") == [0.1, 2.5, float(numpy.float32(0.1))]


def check_masked_arrays():
    """What is masked may be anything, also what is no record; an array with a mask is refused where it masks nothing too."""
    of = numpy.ma.array
    pairs, seen = numpy.array([(1, 2), (3, 4)], dtype=[("key", "<u8"), ("value", "<i8")]), numpy.frombuffer(bytes(32), dtype="V16")
    for kind, rows in (("u64", [of([1, -5, 3], mask=[0, 1, 0]), of([1, 2], dtype="u8"), of([1, 2], mask=[0, 1], dtype=object),
                                [numpy.ma.masked]]),
                       ("u32", [of([1, 2 ** 40], mask=[0, 1])]), ("i64", [of([1, 2 ** 63], mask=[0, 1], dtype="u8")]),
                       ("f64", [of([1.5, 0.1], mask=[0, 1]), of([1.5]), [1.5, numpy.ma.masked]]),
                       ("pair", [of(pairs, mask=[(0, 0), (0, 1)]), of(pairs), list(of(pairs, mask=[(0, 0), (0, 1)]))]),
                       ("bytes16", [of(seen, mask=[0, 1])]),
                       ("flagged", [of(flags([0, 1]), mask=[(0, 0), (0, 1)]), list(of(flags([0, 1]), mask=[(0, 0), (0, 1)]))])):
        with made(kind) as file:
            check_refused(file, rows)
            assert len(file) == 0
            file.append(of([5, 7], mask=[0, 1]).compressed() if kind[0] in "ui" else numpy.asarray(rows[0]))


def check_arrays_of_bytes():
    """An array of V is taken as it is, also one that isn't in one piece; what its elements are is a record too."""
    one, other, last = GOOD["bytes24"]
    seen = numpy.frombuffer(one + other + last, dtype="V24")
    with made("bytes24") as file:
        check_refused(file, [seen.reshape(3, 1), seen.view("S24"), seen.view("V8"), seen.view("V12"), seen.view("V72"), seen.view("u8"),
                             seen.view("u1").reshape(3, 24), seen.view([("low", "V16"), ("high", "V8")]),
                             [seen.view("V8")[0]], [seen.view("S24")[2]], [seen.view([("low", "V16"), ("high", "V8")])[0]],
                             numpy.array([one, other[1:]], dtype=object), numpy.array([one, 0], dtype=object)])
        assert len(file) == 0
        file.append(seen[::2])
        file.append(list(seen))
        file.append([seen[1], one])
        assert file.read().dtype == "V24" and file.read(1, 1).tobytes() == last
        with cvec.Map(PATH, "bytes24") as mapped:
            assert [piece.dtype for piece in mapped.pieces()] == ["V24"] * 3
            file.append(list(mapped.pieces())[0])
    assert listed("bytes24") == [one, last, one, other, last, other, one, one, last]


def check_reads():
    """A writer appends in each pass of a read, and it ends all the same: with the records of one moment."""
    for each in (1, 5000):
        with made("u64") as writer, cvec.File.open_to_read(PATH, "u64") as reader:
            read, passes = reader._read, []

            def read_behind_an_append(*words):
                passes.append(words)
                assert len(passes) < 50, "a read never ends"
                writer.append([len(passes)] * each)
                return read(*words)

            writer.append([0] * each)
            reader._read = read_behind_an_append
            for start, count in ((0, None), (1, None), (0, 3 * each), (2 * each, 10 * each), (10 ** 6, 5)):
                rows = list(reader.read(start, count))
                there = [number for number in range(len(passes) + 1) for _ in range(each)]
                assert rows == there[start:][:count], (start, count, passes)


def check_threads():
    """What each thread was told is durable is there."""
    told = []

    def run(file, thread):
        for number in range(GROWTHS):
            file.append([thread * GROWTHS + number])
            told.append(thread * GROWTHS + number)

    with made("u64") as file:
        threads = [threading.Thread(target=run, args=(file, thread)) for thread in range(THREADS)]
        for thread in threads:
            thread.start()
        for thread in threads:
            thread.join()
    assert sorted(listed("u64")) == sorted(told) == list(range(THREADS * GROWTHS))


def is_forked(call):
    try:
        call()
    except cvec.Error as refusal:
        return str(refusal) == "a forked process can only close it"
    return False


def run_forked(file, told, goes_on):
    """In a forked process: it closes the file, tells so, and lives until its parent goes on."""
    signal.alarm(20)
    refused = is_forked(lambda: file.append([5, 6])) and is_forked(file.read)
    file.close()
    file.close()
    os.write(told, b"1" if refused else b"0")
    os.close(goes_on[1])
    os.read(goes_on[0], 1)
    os._exit(0)


def check_fork():
    """A forked process that has closed the file keeps nobody from it. At the fork another thread has the file's lock."""
    told, goes_on = os.pipe(), os.pipe()
    has_lock, is_forked_now = threading.Event(), threading.Event()

    def hold(lock):
        with lock:
            has_lock.set()
            is_forked_now.wait()

    with made("u64") as file:
        holder = threading.Thread(target=hold, args=(file._lock,))
        holder.start()
        has_lock.wait()
        child = os.fork()
        if child == 0:
            run_forked(file, told[1], goes_on)
        is_forked_now.set()
        holder.join()
        os.close(told[1])
        assert os.read(told[0], 1) == b"1", "a forked process appends or reads"
        file.append([7])
    assert listed("u64") == [7]
    for end in (told[0], *goes_on):
        os.close(end)
    assert os.waitpid(child, 0)[1] == 0


def check_fork_with_one_number():
    """As the first process of a namespace may have its parent's."""
    own, number = os.getpid, os.getpid()
    os.getpid = lambda: number
    check_fork()
    os.getpid = own


def is_read_only(piece):
    try:
        piece[0] = piece[0]
    except (TypeError, ValueError):
        return True
    return False


# A growth of 5, which a change that isn't folded makes 7.
CHANGED = bytes.fromhex("01435645435345470108000101100000000100000001000000050000000000000001021000000000000000000000000700000000000000"
                        "00")


def refusal_of(call, *words):
    try:
        call(*words)
    except (cvec.Error, ValueError) as refusal:
        return refusal.args[0]
    raise AssertionError("not refused")


def check_closing():
    made("u64").append([5])  # nobody holds the file
    gc.collect()
    with cvec.File.open(PATH, "u64") as file:
        before = file.stat
        with open(PATH, "ab") as longer:
            longer.write(bytes(100))
        seen = cvec.Map(PATH, "u64")
        held = list(seen.pieces())
        file.append([6])
        assert before.size == 1 and file.stat.size == len(file) == 2
        assert len(list(seen.frames())) == seen.stat.frames == 1
        seen.close()
        assert [list(piece) for piece in held] == [[5]] and is_read_only(held[0])
        assert refusal_of(lambda: list(seen.pieces())) == refusal_of(lambda: list(seen.frames())) == "the map is closed"
        held.clear()
        del seen
    for call in (lambda: file.append([1]), file.read, lambda: file.stat, lambda: len(file)):
        assert refusal_of(call) == "closed"
    if os.path.exists("/proc/self/maps"):
        with open("/proc/self/maps") as maps:
            assert PATH not in maps.read(), "a map is left"
    os.remove(PATH)
    assert refusal_of(cvec.File.open, PATH, "u64") == "the file can't be opened: No such file or directory"
    assert "zero byte" in refusal_of(cvec.File.create, PATH + "\0x", "u64")
    assert not os.path.exists(PATH)


def check_maps():
    """A pipe, of which nobody writes the other end, isn't waited for."""
    signal.alarm(60)
    pipe = os.path.join(sys.argv[1], "pipe")
    os.mkfifo(pipe)
    for path in (pipe, sys.argv[1], "/dev/null", "/dev/zero"):
        assert refusal_of(cvec.Map, path, "u64") == "a folder, a pipe or a device has this name", path
    for path in (PATH, os.fsencode(PATH), pathlib.Path(PATH)):
        assert refusal_of(cvec.Map, path, "u64") == "the file can't be opened: No such file or directory"
        with cvec.File.create(path, "u64") as file:
            file.append([5])
        with cvec.File.open(path, "u64") as file, cvec.Map(path, "u64") as seen:
            assert list(seen.records()) == list(file.read()) == [5], path
        os.remove(PATH)
    assert "zero byte" in refusal_of(cvec.Map, PATH + "\0x", "u64")
    with open(PATH, "wb") as file:
        file.write(CHANGED)
    with cvec.Map(PATH, "u64") as seen, cvec.File.open(PATH, "u64") as file:
        assert not seen.is_plain() and list(file.read()) == [7]
        assert refusal_of(lambda: list(seen.pieces())) == refusal_of(lambda: list(seen.records())) == "a change is live: read a copy"
    os.remove(PATH)
    for call in (cvec.File.create, cvec.File.open, cvec.Map):
        try:
            call(PATH, "i16")
        except ValueError:
            continue
        raise AssertionError("a type that there isn't")
    assert not os.path.exists(PATH)
    os.remove(pipe)
    signal.alarm(0)


# A growth of 5 and 6, and one of 7.
GROWTHS_OF_TWO = (bytes.fromhex("0143564543534547010800"), bytes.fromhex("01011800000001000000020000000500000000000000" "0600000000000000"),
                  bytes.fromhex("01011000000001000000010000000700000000000000" "00"))


def mapped_as_it_grows(there, whole, moment):
    """The records of a map of a file that has these bytes first, and all of them by that call of the map: or the refusal."""
    calls, patched = [], []

    def patch(owner, name):
        call = getattr(owner, name)

        def call_beside_a_writer(*words):
            if len(calls) == moment:
                with open(PATH, "r+b") as file:
                    file.write(whole)
            calls.append(name)
            return call(*words)

        patched.append((owner, name, call))
        setattr(owner, name, call_beside_a_writer)

    with open(PATH, "wb") as file:
        file.write(there)
    for owner, name in ((os, "fstat"), (LIB, "cvec_image_frame"), (LIB, "cvec_image_homes")):
        patch(owner, name)
    try:
        with cvec.Map(PATH, "u64") as seen:
            return list(seen.records()), len(calls)
    except cvec.Error as fault:
        return str(fault), len(calls)
    finally:
        for owner, name, call in patched:
            setattr(owner, name, call)


def check_maps_that_grow():
    """A writer opens a gate at any moment at which a file is mapped, of which so many bytes were written by then."""
    head, first, second = GROWTHS_OF_TWO
    whole = head + first + second
    starts = ((0, ("no vector was begun in the file",), []), (len(head), ([],), [5, 6]), (len(head + first), ([5, 6],), [5, 6, 7]))
    for gate, before, behind in starts:
        ends = whole if gate == len(head + first) else (whole[:gate] + (first if gate else head) + b"\0")
        shut = ends[:gate] + b"\0" + ends[gate + 1:]
        for length in range(gate + 1, len(ends) + 1):
            for moment in range(1, 9):
                told, count = mapped_as_it_grows(shut[:length], ends, moment)
                # What isn't mapped whole isn't seen.
                assert told in before or length == len(ends) and told == behind, (gate, length, moment, told)
            assert count < moment, "a moment is missing"
    # A frame that is cut, and no writer beside it, is damaged still.
    for length in range(len(whole) - 22, len(whole)):
        told, _ = mapped_as_it_grows(whole[:length], b"", 0)
        assert told == "a frame of the file is damaged at " + ("41: the file ends inside a frame" if length < 63 else "63: the file ends where a gate has to stand"), (length, told)
    os.remove(PATH)


def check_maps_beside_a_writer():
    """Behind many growths of one record, each its number, growths of which some end in the page of their gate, and others far
    behind it."""
    with open(PATH, "wb") as file:
        file.write(GROWTHS_OF_TWO[0] + b"".join(struct.pack("<BBIIIQ", 1, 1, 16, 1, 1, number) for number in range(5000)) + b"\0")
    over = threading.Event()

    def write():
        while not over.is_set():
            size = len(writer)
            writer.append(range(size, size + (3 if size % 2 else 3000)))

    with cvec.File.open(PATH, "u64") as writer:
        thread = threading.Thread(target=write)
        thread.start()
        try:
            for _ in range(40):
                with cvec.Map(PATH, "u64") as seen:
                    last = seen.homes[-1]
                    assert last.position + last.count == len(seen) >= 5000 and len(seen.homes) == seen.stat.frames
                    if numpy is not None:
                        assert [int(piece[-1]) + 1 for piece in seen.pieces()][-3:] == [it.position + it.count for it in seen.homes[-3:]]
        finally:
            over.set()
            thread.join()
    os.remove(PATH)


def check_maps_that_are_closed():
    """As another thread may, in the midst of a call."""
    library, call = LIB, LIB.cvec_image_frame
    with open(PATH, "wb") as file:
        file.write(b"".join(GROWTHS_OF_TWO))
    seen, told = cvec.Map(PATH, "u64"), []

    def closed(*words):
        seen.close()
        gc.collect()
        return call(*words)

    library.cvec_image_frame = closed
    assert refusal_of(lambda: told.extend(seen.frames())) == "the map is closed"
    library.cvec_image_frame = call
    assert [(at, frame.next, frame.records) for at, frame in told] == [(11, 41, 2)]
    os.remove(PATH)


def check_what_is_shown():
    with made("i32") as file:
        file.append([-5, 7])
        assert (file.path, file.closed, file.shape, repr(file)) == (PATH, False, (2,), f"<File {PATH!r} of i32>")
        assert file.dtype is None if numpy is None else file.dtype == file.read().dtype == numpy.int32
        if numpy is not None:
            assert numpy.asarray(file).tolist() == numpy.asarray(file, dtype="i8").tolist() == [-5, 7] and numpy.asarray(file, dtype="f4").dtype == numpy.float32
        with cvec.Map(PATH, "i32") as seen:
            assert (seen.path, seen.closed, seen.shape, repr(seen)) == (PATH, False, (2,), f"<Map {PATH!r} of i32>")
        assert seen.closed and repr(seen) == f"<Map {PATH!r} of i32, closed>"
    assert file.closed and repr(file) == f"<File {PATH!r} of i32, closed>" and refusal_of(lambda: file.shape) == "closed"
    with cvec.File.open(os.fsencode(PATH), "i32") as file, cvec.Map(pathlib.Path(PATH), "i32") as seen:
        assert file.path == os.fsencode(PATH) and seen.path == os.fspath(pathlib.Path(PATH))
    os.remove(PATH)
    # What the system refused is an OSError of its kind, with the file's name.
    for call in (cvec.File.open, cvec.File.open_to_read, cvec.Map):
        try:
            call(PATH)
        except FileNotFoundError as fault:
            assert isinstance(fault, cvec.Error) and (fault.status, fault.errno, fault.filename) == (cvec.Status.DISK_OPEN, errno.ENOENT, PATH)
            assert str(fault) == f"the file can't be opened: No such file or directory: {PATH!r}"
        else:
            raise AssertionError("not refused")
    for words in (("u64", 2), (8,), (None,)):
        try:
            cvec.File.create(PATH, *words)
        except TypeError:
            assert not os.path.exists(PATH)
        else:
            raise AssertionError("not refused")
    for turn in range(3):
        with cvec.File.open_or_create(PATH, "u16", version=2) as file:
            assert list(file.read()) == list(range(turn)) and file.stat.version == 2
            file.append([turn])
    for there in (b"", bytes(5)):
        with open(PATH, "wb") as file:
            file.write(there)
        cvec.File.open_or_create(PATH).close()
    assert listed("u64") == [] and refusal_of(cvec.File.open_or_create, PATH, "u32") == "the records have another width"
    os.remove(PATH)


def check_versions():
    """A file is made of version 1 or 2, and of no other, of which nothing is made."""
    for version in (0, 3, -1, 257, 1.5, None):
        assert refusal_of(lambda: cvec.File.create(PATH, version=version)) == "the version isn't known", version
        assert not os.path.exists(PATH)
    for words, version in (({}, 1), ({"version": 1}, 1), ({"version": 2}, 2)):
        with cvec.File.create(PATH, "u64", **words) as file:
            assert file.stat.version == version
        with cvec.File.open(PATH, "u64") as file:
            assert file.stat.version == version
        os.remove(PATH)


def check_pickling():
    """A refusal is the same in another process; a pool, which would wait for ever, has that of its own."""
    its = error_of(5, fault=Fault(7, 1, 2)), error_of(13, fault=Fault(at=3)), error_of(35, "of", errno=2), error_of(34)
    assert [(it.at, it.cause, it.found) for it in its[:2]] == [(7, 1, 2), (3, 0, 0)] and isinstance(its[2], FileNotFoundError)
    for it in its:
        there = pickle.loads(pickle.dumps(it))
        assert str(there) == str(it) and vars(there) == vars(it) and type(there) is type(it)
    with multiprocessing.Pool(1) as pool:
        assert refusal_of(pool.apply_async(cvec.File.open, (PATH, "u64")).get, 20) == "the file can't be opened: No such file or directory"
    with made("u64") as file:
        for make in (copy.copy, copy.deepcopy, pickle.dumps):
            try:
                make(file)
            except TypeError:
                continue
            raise AssertionError("a copy, which would close the file")
        gc.collect()
        file.append([5])
    os.remove(PATH)


def check_interrupts():
    """Ctrl-C comes as soon as C has the file: it is let go of, also while a traceback has what was begun."""
    for name, make in (("cvec_file_create", cvec.File.create), ("cvec_file_open", cvec.File.open), ("cvec_file_open_to_read", cvec.File.open_to_read)):
        library, call = LIB, getattr(LIB, name)
        before = len(os.listdir("/dev/fd"))

        def interrupted(*words):
            call(*words)
            raise KeyboardInterrupt

        setattr(library, name, interrupted)
        try:
            make(PATH, "u64")
        except KeyboardInterrupt:
            setattr(library, name, call)
            assert len(os.listdir("/dev/fd")) == before, "a file is left"
            cvec.File.open(PATH, "u64").close()
        else:
            raise AssertionError("not interrupted")
    os.remove(PATH)


check_rows()
if numpy is not None:
    check_arrays()
    check_arrays_of_floats()
    check_arrays_of_bytes()
    check_masked_arrays()
check_reads()
check_threads()
check_fork()
check_fork_with_one_number()
check_closing()
check_maps()
check_maps_that_grow()
check_maps_beside_a_writer()
check_maps_that_are_closed()
check_versions()
check_what_is_shown()
check_pickling()
check_interrupts()
print("with numpy" if numpy else "without numpy")
