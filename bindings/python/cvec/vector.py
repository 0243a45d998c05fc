"""A durable vector that threads of this process grow, by ctypes over the library for C. docs/use/python.md has its use, and what
is lent for how long.

    with Vector.create("numbers.cvec") as vector:
        receipt = vector.grow([5, 7, 11])      # in the vector, in one row: each thread reads it
        vector.settle()                        # durable when it returns
        print(len(vector), vector[0], vector[receipt.start:])
        print(sum(map(sum, vector.lent())))    # where they stand, without a copy

A call lets other threads run meanwhile. With numpy records are arrays, without it those of `array`. No call comes from a signal's
handler."""
from __future__ import annotations

import ctypes
import itertools
import operator
import os
import threading
import time
import weakref
from ctypes import POINTER, byref, c_size_t, c_uint8, c_uint16, c_uint32, c_uint64, c_void_p
from typing import Any, Callable, Iterator, NamedTuple

from .errors import Error, Status
from .flushing import Flusher, Loop, milliseconds
from .handles import Described, Single
from .kinds import Records, Rows, address_of, kind_of
from .lending import BlockLoan, CBlock, Kept, Loan, end_writing, memory_at
from .library import LIB, NUMBERS, declare, error_of, name_of
from .records import numpy

MOST_SEATS = 64
MOST_GROWTHS = 536_870_904
_GREATEST = 2 ** 64 - 1
# How many rows a search reads at once, and how many records a loop, or a slice with a step where C copies them.
_PIECE = 4096
_COPIED = 65536
# C copies pieces that have fewer bytes than this in the mean: an array for each would take longer. So many pieces are asked for at once,
# by what reads them and by what lends them.
_SHORT = 32768
_ASKED = 64
_PIECES = 256
# So long C waits at a time, in milliseconds: ctypes lets no signal's handler run meanwhile. And so many seconds one sleeps who waits for
# passes over records.
_SLICE = 100
_NAP = 0.0005


class _Receipt(ctypes.Structure):
    _fields_ = [("number", c_uint64), ("start", c_uint64), ("len", c_uint64), ("serial", c_uint64), ("seat", c_uint16)]


class _Options(ctypes.Structure):
    _fields_ = [("version", c_uint8), ("seats", c_uint16), ("pushes", c_uint32), ("growths", c_uint64)]


class _Piece(ctypes.Structure):
    _fields_ = [("start", c_uint64), ("records", c_void_p), ("len", c_uint64)]


_BEGIN = [POINTER(c_void_p), ctypes.c_char_p, c_uint32, POINTER(_Options)]
declare({
    "vector_create": _BEGIN,
    "vector_open": _BEGIN,
    "vector_open_or_create": _BEGIN,
    "vector_end": [c_void_p],
    "vector_flush": [c_void_p],
    "vector_stop_flusher": [c_void_p],
    "vector_settle": [c_void_p, c_uint64],
    "vector_settled": [c_void_p, POINTER(c_uint64)],
    "vector_compact": [c_void_p],
    "vector_change": [c_void_p, c_uint32, c_uint64, c_void_p, c_size_t],
    "vector_resize": [c_void_p, c_uint32, c_uint64, ctypes.c_char_p],
    "vector_clear": [c_void_p],
    "vector_fold": [c_void_p],
    "seat_borrow": [c_void_p, c_uint64, POINTER(c_void_p)],
    "seat_return": [POINTER(c_void_p)],
    "seat_grow": [c_void_p, c_uint32, c_void_p, c_size_t, POINTER(_Receipt)],
    "seat_settle": [c_void_p, c_uint64, c_uint64],
    "seat_size": [c_void_p, POINTER(c_uint64)],
    "seat_read": [c_void_p, c_uint32, c_uint64, c_void_p, c_size_t, POINTER(c_uint64)],
    "seat_pieces": [c_void_p, c_uint64, POINTER(_Piece), c_size_t, POINTER(c_size_t)],
    "seat_block": [c_void_p, c_size_t, POINTER(c_void_p)],
    "seat_detach": [c_void_p, POINTER(CBlock)],
    "seat_attach": [c_void_p, POINTER(CBlock)],
    "seat_publish": [c_void_p, POINTER(_Receipt)],
    "seat_count": [c_void_p, c_uint32, ctypes.c_char_p, POINTER(c_uint64)],
    "seat_find": [c_void_p, c_uint32, ctypes.c_char_p, c_uint64, POINTER(c_uint64)],
})


class Receipt(NamedTuple):
    """Where a growth stands, as long as the vector is open, and until its records are taken away."""

    number: int
    """How many growths since the vector was opened stand before it."""
    start: int
    """The position of its first record."""
    length: int
    """How many records it has."""


class Block(Single):
    """A growth in place, which `grow_into` gives. A `with` block has an array of its records, all zeros at first. When it ends the
    vector grows by them as one growth, as `grow` does and with its refusals, but without a copy; where an exception ends it nothing
    is grown. ValueError: a flag is neither 0 nor 1. Then the array can't be written any more; without numpy it is a memoryview,
    which is released. Where something else is made of it that may be written, the growth is a copy."""

    def __init__(self, vector: Vector, count: int) -> None:
        self._vector, self._count, self._receipt = vector, operator.index(count), _Receipt()
        if self._count < 0:
            raise ValueError("a count is below 0")
        # The block that C lends, and what is made of its memory.
        self._loan: BlockLoan | None = None
        self._memory: list[Any] = []
        self._rows: list[Any] = []

    @property
    def receipt(self) -> Receipt | None:
        """Where the growth stands, once it is made, whatever interrupts that."""
        return self._vector._told(self._receipt) if self._receipt.len > 0 else None

    def __enter__(self) -> Any:
        if self._memory:
            raise ValueError("a block is written once")
        vector, form, loan = self._vector, self._vector._form, BlockLoan(self._vector._kept)
        words = min(self._count * form.words, _GREATEST)
        vector._check(vector._run(self._begin_by, words, loan.block))
        self._loan = loan
        self._memory.append(memory_at(loan.block.records, words * form.width, True, loan))
        self._rows.append(form.seen(self._memory[0]))
        return self._rows[0]

    def _begin_by(self, seat: c_void_p, words: int, block: CBlock) -> int:
        at = c_void_p()
        return LIB.cvec_seat_block(seat, words, byref(at)) or LIB.cvec_seat_detach(seat, byref(block))

    def __exit__(self, kind: Any, *_: Any) -> None:
        try:
            is_alone = end_writing(self._rows, self._memory)
            if kind is None:
                self._grow(is_alone)
        finally:
            # What is made of the memory keeps the loan.
            self._rows, self._memory, self._loan = [], [None], None

    def _grow(self, is_alone: bool) -> None:
        """By the memory itself, if nobody can write it any more."""
        vector, block = self._vector, self._loan.block
        try:
            if is_alone:
                vector._grow_by(self._publish, (), self._receipt)
            else:
                copied = ctypes.string_at(block.records, block.count * vector._form.width)
                vector._grow_by(vector._run, (vector._grow_words, copied, block.count, self._receipt), self._receipt)
        except Error as refusal:
            if refusal.status == Status.NO_RECORD:
                raise ValueError(f"no records of the type: {refusal}") from None
            raise

    def _publish(self) -> int:
        return self._vector._pass(self._publish_by)

    def _publish_by(self, seat: c_void_p) -> int:
        """From before it is grown on it is lent; or not, where it isn't."""
        block, receipt, lent = byref(self._loan.block), byref(self._receipt), self._vector._note(self._loan)
        try:
            return LIB.cvec_seat_attach(seat, block) or LIB.cvec_seat_publish(seat, receipt)
        finally:
            # A seat that is given back would give the block up. One that is grown is none any more.
            LIB.cvec_seat_detach(seat, block)
            if self._receipt.len == 0:
                self._vector._loans.discard(lent)


class Appender(Single):
    """Single records, kept until there are as many as one block has: then the vector grows by them. Nobody reads what is kept.
    A `with` block grows by the rest at its end. For one thread at a time."""

    def __init__(self, vector: Vector, capacity: int) -> None:
        if capacity < 1:
            raise ValueError("an appender keeps at least one record")
        self._vector, self._capacity, self._bytes, self._kept = vector, capacity, bytearray(), 0

    def __enter__(self) -> Appender:
        return self

    def __exit__(self, *_: Any) -> None:
        self.flush()

    @property
    def kept(self) -> int:
        """How many records are kept."""
        return self._kept

    def push(self, record: Any) -> Receipt | None:
        """Keeps the record. Where as many are kept as fit, it grows by those first, and answers their receipt; where that is
        refused the record isn't kept, and the others stay. ValueError: it is no record of the vector."""
        receipt = self.flush() if self._kept == self._capacity else None
        data = self._vector._form.bytes_of(record)
        # An interrupt between the two leaves bytes that are cut off here.
        self._bytes[self._kept * len(data):] = data
        self._kept += 1
        return receipt

    def flush(self) -> Receipt | None:
        """Grows by what is kept, as one block; None where that is nothing. Refused, all of it stays kept."""
        if self._kept == 0:
            return None
        vector, receipt = self._vector, _Receipt()
        words = self._kept * vector._form.words
        data = (c_uint8 * (words * vector._form.width)).from_buffer_copy(self._bytes)
        try:
            return vector._grow_noted(ctypes.addressof(data), words, receipt)
        finally:
            if receipt.len > 0:
                self._kept = 0


class Seat(Single):
    """Grows for one thread at a time, to settle its own growths alone. `Vector.seat` gives one; there may be any number."""

    def __init__(self, vector: Vector) -> None:
        self._vector, self._last = vector, _Receipt()

    def grow(self, records: Any) -> Receipt:
        """As `Vector.grow`."""
        receipt = _Receipt()
        try:
            return self._vector._grow(records, receipt)
        finally:
            # An interrupt may come as soon as it has grown.
            self._last = receipt if receipt.len > 0 else self._last

    def settle(self, timeout: float | None = None) -> None:
        """Waits until all that this seat grew is durable, as `Vector.settle`."""
        if self._last.len > 0:
            self._vector.settle(self._vector._told(self._last), timeout)


class Vector(Single, Described):
    """A durable vector of a file, which is locked until it is closed; `create`, `open` and `open_or_create` make one. Any number of
    threads may share it. A process that is forked may only close it (FORKED).

    `change`, `resize`, `clear`, `fold` and `compact` are of the whole vector: each waits for calls that are under way, and others
    wait for it. It settles what was grown, and what it makes is durable when it returns. BufferError: records are lent, and
    nothing is done. MEMORY and FILE_FULL lose nothing. DISK_WRITE, DISK_SYNC: the file refused it, and from then on all is BROKEN,
    reads too."""

    def __init__(self, path: Any, form: Records | Rows) -> None:
        """Not to be called: `create`, `open` and `open_or_create` do."""
        self._kept, self._form, self._path, self._process = Kept(), form, os.fspath(path), LIB.cvec_process()
        self._number = NUMBERS[form.word]
        self._closed = False
        # Of each call that is under way the thread that makes it; and of those among them that whole calls wait for. Who begins such a
        # pass, or has the whole vector, has the turn.
        self._calls: dict[object, int] = {}
        self._passes: dict[object, int] = {}
        self._turn = threading.RLock()
        # Of what is lent and lives.
        self._loans: set[weakref.ref[Loan]] = set()
        self._loops: set[weakref.ref[Loop]] = set()
        self._stopped = False

    # ---- how it begins and ends

    @classmethod
    def create(cls, path: Any, type: str = "u64", *, dtype: Any = None, version: int = 1, seats: int = MOST_SEATS,
               growths: int | None = None) -> Vector:
        """Makes a file of version 1 or 2. Its records are of this type: u32, u64, i32, i64, f32, f64, pair, flagged or bytes16, of which
        pair and flagged are tuples. Or they are of a type of numpy whose size is a multiple of 4 bytes up to 256, each a row of words
        of 8 bytes, or of 4. The file has their bytes, and doesn't say which type. `seats`: so many calls are inside at a time, 1 to
        64. `growths`: for so many a phase has room; by default 4,129,776, or 1,048,568 where the system refuses the addresses, and
        536,870,904 at most. Error EXISTS: something is there, and stays."""
        return cls._begin(LIB.cvec_vector_create, path, type, dtype, version, seats, growths)

    @classmethod
    def open(cls, path: Any, type: str = "u64", *, dtype: Any = None, seats: int = MOST_SEATS, growths: int | None = None) -> Vector:
        """Opens a file that is there, and reads it. Error IN_USE: it is open, here or elsewhere; UNBORN, NOT_SEGMENT, VERSION,
        WIDTH or DAMAGED: it has no vector of such records. ValueError: its words are no whole records of that dtype."""
        return cls._begin(LIB.cvec_vector_open, path, type, dtype, 1, seats, growths)

    @classmethod
    def open_or_create(cls, path: Any, type: str = "u64", *, dtype: Any = None, version: int = 1, seats: int = MOST_SEATS,
                       growths: int | None = None) -> Vector:
        """As `open`, or as `create` where there is no such file, or what a stopped creation leaves."""
        return cls._begin(LIB.cvec_vector_open_or_create, path, type, dtype, version, seats, growths)

    @classmethod
    def _begin(cls, call: Any, path: Any, type: str, dtype: Any, version: int, seats: int, growths: int | None) -> Vector:
        if version not in (1, 2):
            raise ValueError("a file has version 1 or 2")
        if not 1 <= seats <= MOST_SEATS:
            raise ValueError(f"a vector has 1 to {MOST_SEATS} seats")
        if growths is not None and not 1 <= operator.index(growths) <= MOST_GROWTHS:
            raise ValueError(f"a phase has room for 1 to {MOST_GROWTHS} growths")
        form = kind_of(type, dtype)
        form.check_arrays()
        vector, options = cls(path, form), _Options(version, seats, 0, growths or 0)
        try:
            vector._check(call(byref(vector._kept.at), name_of(path), vector._number, byref(options)))
            if vector._run(vector._words_by) % form.words != 0:
                raise ValueError(f"its words are no whole records of {form.name}")
            return vector
        except BaseException:
            # An interrupt may come as soon as C has begun it.
            vector.close()
            raise

    def close(self) -> None:
        """Commits what was grown, waits for the calls that are under way, and closes the file. An Error says that growths nobody
        has settled may be lost; the vector is closed then too. BufferError: records are lent, and it goes on. A forked process lets
        go of the file alone, and what was lent to it stays."""
        if self._closed:
            return
        if self._is_forked():
            self._closed = True
            LIB.cvec_vector_close(byref(self._kept.at))
            return
        self._check_own(self._calls)
        status, end, at = None, LIB.cvec_vector_end, self._kept.at
        with self._turn:
            self._await_passes()
            try:
                self._closed = True
                status = end(at)
            finally:
                # Before C had begun that, as by Ctrl-C: another call closes it.
                self._closed = status is not None
        self._end_loops()
        # What was ended by a call that was interrupted, or wasn't begun, is that.
        if status != Status.NOT_SO:
            self._check(status)

    def __enter__(self) -> Vector:
        return self

    def __exit__(self, kind: Any, *_: Any) -> None:
        """What is lent may live by the traceback of an exception. That goes on then, and the vector is closed once nobody has it."""
        try:
            self.close()
        except BufferError:
            if kind is None:
                raise

    @property
    def closed(self) -> bool:
        return self._closed

    # ---- calls of C

    def _is_forked(self) -> bool:
        return self._process != LIB.cvec_process()

    def _check_process(self) -> None:
        """A thread that had a lock when this process was forked never lets go of it here."""
        if self._is_forked():
            raise error_of(Status.FORKED)

    def _check_own(self, calls: dict[object, int]) -> None:
        """The thread that makes one of these can't wait for its end."""
        if threading.get_ident() in calls.values():
            raise error_of(Status.BUSY)

    def _check(self, status: int) -> None:
        """To be asked right behind the call that answered it. A vector has no other handles than those of a vector that is closed."""
        if status == Status.NOT_SO:
            raise Error(Status.NOT_SO, "closed")
        if status != 0:
            raise error_of(status, self.path)

    def _run(self, call: Callable[..., Any], *words: Any) -> Any:
        """What this answers of a seat of C's that is borrowed for it. Interrupts come as calls begin or have ended: at each of them the
        seat is given back, which takes one call."""
        seat, thread, mark, calls = c_void_p(), threading.get_ident(), object(), self._calls
        borrow, give_back, kept, at = LIB.cvec_seat_borrow, LIB.cvec_seat_return, self._kept.at, byref(seat)
        calls[mark] = thread
        try:
            status = borrow(kept, _SLICE, at)
            while status == Status.LATE:
                status = borrow(kept, _SLICE, at)
            self._check(status)
            return call(seat, *words)
        finally:
            del calls[mark]
            if seat:
                give_back(at)

    def _ask(self, call: Any, *words: Any) -> None:
        self._check(self._run(call, *words))

    def _pass(self, call: Callable[..., Any], *words: Any) -> Any:
        """As `_run`, of what makes several calls of C, or reads records where they stand: whole calls wait for its end."""
        mark, thread, passes = object(), threading.get_ident(), self._passes
        self._check_process()
        try:
            with self._turn:
                passes[mark] = thread
            return self._run(call, *words)
        finally:
            passes.pop(mark, None)

    def _await_passes(self) -> None:
        """With the turn: others begin behind it. What they have lent is gone then, unless an exception has it."""
        while self._passes:
            time.sleep(_NAP)
        if self._loans:
            raise BufferError("records of the vector are lent: an array or a memoryview of them lives")

    def _whole(self, call: Any, *words: Any) -> None:
        """A call of the whole vector, for which C has calls by seats wait."""
        self._check_process()
        self._check_own(self._passes)
        with self._turn:
            self._await_passes()
            status = call(self._kept.at, *words)
        self._check(status)

    def _note(self, loan: Loan) -> weakref.ref[Loan]:
        """Within a pass: what it is of is lent from now on."""
        lent = weakref.ref(loan, self._loans.discard)
        self._loans.add(lent)
        return lent

    # ---- growths

    def _told(self, receipt: _Receipt) -> Receipt:
        return Receipt(receipt.number, receipt.start // self._form.words, receipt.len // self._form.words)

    def _grow_by(self, call: Any, words: Any, receipt: _Receipt) -> Receipt:
        """Where C takes no more growths since some were lent, none of which lives, room is made: C doesn't know that of them."""
        while True:
            status = call(*words)
            if status != Status.FULL or not self._make_room():
                self._check(status)
                return self._told(receipt)

    def _make_room(self) -> bool:
        try:
            self.compact()
        except BufferError:
            return False
        return True

    def _grow_words(self, seat: c_void_p, at: Any, count: int, receipt: _Receipt) -> int:
        return LIB.cvec_seat_grow(seat, self._number, at, count, byref(receipt))

    def _grow_noted(self, at: Any, count: int, receipt: _Receipt) -> Receipt:
        """The receipt has a length from the growth on, whatever interrupts this."""
        return self._grow_by(self._run, (self._grow_words, at, count, receipt), receipt)

    def grow(self, records: Any) -> Receipt:
        """Grows the vector by these records, as one block behind all that was grown before: all of them or none. Other threads
        read them when it returns; they are durable once they are settled. Nobody changes an array meanwhile. Where a phase
        has no more room it settles all that was grown, while other calls wait. ValueError: not all are records of the vector.
        Error EMPTY: none; TOO_LARGE: more than 1,048,568 bytes; FULL: no more room, and records are lent; BROKEN."""
        return self._grow(records, _Receipt())

    def _grow(self, records: Any, receipt: _Receipt) -> Receipt:
        held, at, count = self._form.lend(records)
        try:
            return self._grow_noted(at, count, receipt)
        finally:
            # A traceback must not keep an array from being resized.
            del held

    def seat(self) -> Seat:
        """What settles its own growths alone."""
        return Seat(self)

    def grow_into(self, count: int) -> Block:
        """A growth of so many records that are written in place, by a `with` block."""
        return Block(self, count)

    def appender(self, capacity: int = 4096) -> Appender:
        """Gathers single records."""
        return Appender(self, capacity)

    # ---- what is durable

    def settle(self, receipt: Receipt | None = None, timeout: float | None = None) -> None:
        """Waits until this growth and each before it is durable; without one, all that had returned when it was called, of whichever
        thread. Who finds that nobody commits commits for all that wait. `timeout`: how many seconds it waits for others; then Error
        LATE, and the growth may yet become durable. Error OUT_OF_RANGE: there is no such growth; DISK_WRITE, DISK_SYNC: the file
        refused it, and from then on all is BROKEN."""
        end = None if timeout is None else time.monotonic() + milliseconds(timeout) / 1000
        if receipt is None:
            self._check(self._settle_by(lambda limit: LIB.cvec_vector_settle(self._kept.at, limit), end))
        elif 0 <= receipt.number <= _GREATEST:
            self._ask(lambda seat: self._settle_by(lambda limit: LIB.cvec_seat_settle(seat, receipt.number, limit), end))
        else:
            raise error_of(Status.OUT_OF_RANGE)

    def _settle_by(self, call: Callable[[int], int], end: float | None) -> int:
        """By slices, until that moment."""
        while True:
            left = _SLICE if end is None else min(_SLICE, milliseconds(max(0.0, end - time.monotonic())))
            status = call(left)
            if status != Status.LATE or left < _SLICE:
                return status

    def settled(self) -> int:
        """How many growths are durable: those with a lower number are. It doesn't wait."""
        count = c_uint64()
        self._check(LIB.cvec_vector_settled(self._kept.at, byref(count)))
        return count.value

    def flusher(self, every: float) -> Flusher:
        """A thread of its own that does what `run_flusher` does, as long as a `with` block lasts."""
        return Flusher(self, every)

    def run_flusher(self, every: float) -> None:
        """For a thread of the caller's: commits what was grown, and so again and again, so many seconds (at least 0.001) behind the
        last time, until `stop_flusher`, the close, or the end of each thread that isn't a daemon's and doesn't flush. Error: a commit
        was refused, which ends it."""
        loop = Loop(self, every)
        self._begin_loop(loop)
        loop.run()

    def _begin_loop(self, loop: Loop) -> None:
        self._check_process()
        if self._closed:
            self._check(Status.NOT_SO)
        self._loops.add(weakref.ref(loop, self._loops.discard))

    def _end_loops(self) -> None:
        self._stopped = True
        for loop in filter(None, [it() for it in list(self._loops)]):
            loop.end()

    def _flush(self) -> bool:
        """Commits what was grown. Whether it may be asked to again: it isn't closed, and flushers aren't stopped."""
        if self._stopped:
            return False
        status = LIB.cvec_vector_flush(self._kept.at)
        if status != Status.NOT_SO:
            self._check(status)
        return status != Status.NOT_SO

    def stop_flusher(self) -> None:
        """Ends the loops of flushers, each that is begun later too. It doesn't wait for them."""
        self._check(LIB.cvec_vector_stop_flusher(self._kept.at))
        self._end_loops()

    # ---- reading

    def _words_by(self, seat: c_void_p) -> int:
        size = c_uint64()
        self._check(LIB.cvec_seat_size(seat, byref(size)))
        return size.value

    def _size_by(self, seat: c_void_p) -> int:
        return self._words_by(seat) // self._form.words

    def _read_by(self, seat: c_void_p, start: int, room: Any) -> None:
        """Copies the records from there on, of which there are as many as these."""
        words, done = self._form.words, c_uint64()
        self._check(LIB.cvec_seat_read(seat, self._number, start * words, address_of(room), len(room) * words, byref(done)))

    def _one_by(self, seat: c_void_p, key: int) -> Any:
        size, room = self._size_by(seat), self._form.room(1)
        try:
            self._read_by(seat, range(size)[key], room)
        except IndexError:
            raise IndexError(f"there is no position {key} of {size}") from None
        return self._form.one(room)

    def _slice_by(self, seat: c_void_p, key: slice) -> Any:
        """A copy of these records, by one pass over them: nobody shortens the vector meanwhile. What is in a row C copies."""
        positions = range(self._size_by(seat))[key]
        room, is_row = self._form.room(len(positions)), abs(positions.step) == 1
        if is_row and positions:
            self._read_by(seat, min(positions[0], positions[-1]), room)
        elif positions:
            self._copy_by(seat, positions, memoryview(room) if numpy is None else room)
        return room[::-1] if is_row and positions.step < 0 else room

    def _cast_by(self, seat: c_void_p, dtype: Any) -> Any:
        """All records as numbers of this dtype."""
        positions = range(self._size_by(seat))
        rows = numpy.empty(len(positions), dtype=dtype)
        self._copy_by(seat, positions, rows)
        return rows

    def _copy_by(self, seat: c_void_p, positions: range, rows: Any) -> None:
        """Those that stand first come first."""
        if positions.step < 0:
            positions, rows = positions[::-1], rows[::-1]
        done = 0
        for part in self._parts(seat, positions):
            self._form.fill(rows, done, part)
            done += len(part)

    def _lists_by(self, seat: c_void_p, start: int, stop: int) -> list[Any]:
        """The records from `start` to before `stop`, as far as the vector reaches, each an object of its own."""
        return [self._form.each(it) for it in self._parts(seat, range(start, min(stop, self._size_by(seat))))]

    def _has_by(self, seat: c_void_p, record: Any) -> bool:
        return any((it == record).any() for it in self._parts(seat, range(self._size_by(seat))))

    def _has_row(self, record: Any) -> bool:
        return self._pass(self._has_by, record)

    def _parts(self, seat: c_void_p, positions: range) -> Iterator[Any]:
        """The records at these positions, which ascend, in arrays one behind the other: where they stand, or as C copies them. Within a
        pass, and until the last of the arrays is gone."""
        while positions:
            at = positions[0]
            for rows in self._long_pieces(seat, positions) or [self._short_pieces(seat, positions)]:
                chosen = rows[positions[0] - at::positions.step]
                at, positions = at + len(rows), positions[len(chosen):]
                yield chosen

    def _long_pieces(self, seat: c_void_p, positions: range) -> list[Any]:
        """The records from the first of these positions on, to the last one at most, where they stand; none, where pieces are short.
        They are lent, since an exception within the pass may keep them."""
        words, width, views = self._form.words, self._form.width, []
        start, stop = positions[0] * words, (positions[-1] + 1) * words
        if (stop - start) * width < _SHORT:
            return views
        asked = max(1, min(_ASKED, _COPIED // positions.step))
        pieces, count = (_Piece * asked)(), c_size_t()
        self._check(LIB.cvec_seat_pieces(seat, start, pieces, asked, byref(count)))
        last = pieces[count.value - 1]
        if (min(last.start + last.len, stop) - start) * width >= count.value * _SHORT:
            self._see(pieces[:count.value], stop, self._lend(), views)
        return views

    def _short_pieces(self, seat: c_void_p, positions: range) -> Any:
        """A copy of the records from the first of these positions on: some of those that are taken, and all between them."""
        part = positions[:max(1, _COPIED // positions.step)]
        room = self._form.room(part[-1] + 1 - part[0])
        self._read_by(seat, part[0], room)
        return memoryview(room) if numpy is None else room

    def __len__(self) -> int:
        """How many records there are, durable or not."""
        return self._run(self._size_by)

    def __getitem__(self, key: int | slice) -> Any:
        """The record at a position, or a copy of a slice."""
        return self._pass(self._slice_by if isinstance(key, slice) else self._one_by, key)

    def __contains__(self, record: Any) -> bool:
        """Whether a record equals it, as `==` has it."""
        return self._form.has(self, record)

    def __array__(self, dtype: Any = None, copy: bool | None = None) -> Any:
        """For numpy: a copy of the records. Where `copy` is False they are lent, as one array; ValueError: they stand in several
        pieces, or have another type."""
        if copy is not False:
            wanted = dtype if dtype is None else numpy.dtype(dtype)
            if wanted is not None and self._form.are_cast(wanted):
                return self._pass(self._cast_by, wanted)
            return self[:] if wanted is None else self[:].astype(wanted, copy=False)
        rows = self.lent() or [self[:0]]
        if len(rows) > 1 or dtype is not None and rows[0].dtype != dtype:
            raise ValueError("the records stand in several pieces, or have another type: a copy is needed")
        return rows[0]

    def pieces(self, length: int = _COPIED) -> Iterator[Any]:
        """The records that there are now, in copies of so many."""
        if length < 1:
            raise ValueError("a piece has at least one record")
        size = len(self)
        return (self[at:min(at + length, size)] for at in range(0, size, length))

    def _lists(self, is_reversed: bool = False) -> Iterator[Any]:
        """The records that there are now, in lists of their own. Between two of them others may change the vector."""
        size = len(self)
        starts = range(0, size, _COPIED)
        for start in reversed(starts) if is_reversed else starts:
            lists = self._pass(self._lists_by, start, min(start + _COPIED, size))
            yield from map(reversed, reversed(lists)) if is_reversed else lists

    def __iter__(self) -> Iterator[Any]:
        """The records that there are now, one by one."""
        return itertools.chain.from_iterable(self._lists())

    def __reversed__(self) -> Iterator[Any]:
        """The same, the last one first."""
        return itertools.chain.from_iterable(self._lists(is_reversed=True))

    # ---- what is lent

    def _lend(self) -> Loan:
        loan = Loan(self._kept)
        self._note(loan)
        return loan

    def lent(self, start: int = 0, stop: int | None = None) -> list[Any]:
        """The records from position `start` to before `stop`, as far as the vector reaches, where they stand, without a copy: arrays
        to be read alone, or memoryviews without numpy, one for each piece in their order. They stay while threads grow. While one
        of them lives, or what is made of it, calls of the whole vector and the close are a BufferError, and a growth for which a
        phase has no more room is FULL."""
        if start < 0:
            raise ValueError("a position is below 0")
        return self._pass(self._lend_by, start, stop)

    def _lend_by(self, seat: c_void_p, start: int, stop: int | None) -> list[Any]:
        pieces, count, size, loan, views = (_Piece * _PIECES)(), c_size_t(), self._size_by(seat), self._lend(), []
        at, end = start * self._form.words, min(size, size if stop is None else stop) * self._form.words
        while at < end:
            self._check(LIB.cvec_seat_pieces(seat, at, pieces, _PIECES, byref(count)))
            at = self._see(pieces[:count.value], end, loan, views)
        return views

    def _see(self, pieces: list[_Piece], stop: int, loan: Loan, views: list[Any]) -> int:
        """Adds what is before `stop` of these, and answers where that ends."""
        for piece in pieces:
            length = min(piece.len, stop - piece.start)
            if length <= 0:
                return stop
            view = self._form.seen(memory_at(piece.records, length * self._form.width, False, loan))
            views.append(view.toreadonly() if numpy is None else view)
        return piece.start + length

    # ---- searches

    def _search_by(self, seat: c_void_p, row: bytes, start: int, ends: Any) -> None:
        """For rows of several words, which C doesn't search: passes on the positions of those that have these bytes, until it ends."""
        words, dtype, done = self._form.words, f"<u{self._form.width}", c_uint64()
        sought, room = numpy.frombuffer(row, dtype=dtype), numpy.empty((_PIECE, words), dtype=dtype)
        while True:
            self._check(LIB.cvec_seat_read(seat, self._number, start * words, address_of(room), _PIECE * words, byref(done)))
            count = done.value // words
            if count == 0 or ends(start + numpy.flatnonzero((room[:count] == sought).all(axis=1))):
                return
            start += count

    def count(self, record: Any) -> int:
        """How many records have the bytes of this one. ValueError: it is no record of the vector."""
        row, count, found = self._form.bytes_of(record), c_uint64(), []
        if self._form.words == 1:
            self._ask(LIB.cvec_seat_count, self._number, row, byref(count))
            return count.value
        self._pass(self._search_by, row, 0, lambda places: found.append(len(places)))
        return sum(found)

    def find(self, record: Any, start: int = 0) -> int | None:
        """The first position from `start` on of a record with the bytes of this one. ValueError: it is no record of the vector."""
        row, before, found = self._form.bytes_of(record), self._words_before(start), []
        if self._form.words == 1:
            return self._pass(self._find_by, row, before)
        self._pass(self._search_by, row, before // self._form.words, lambda places: found.extend(places[:1].tolist()) or found)
        return found[0] if found else None

    def _find_by(self, seat: c_void_p, record: bytes, start: int) -> int | None:
        """Where C finds none it answers how many there are then: no fewer than before."""
        place, size = c_uint64(), self._words_by(seat)
        self._check(LIB.cvec_seat_find(seat, self._number, record, start, byref(place)))
        return place.value if place.value < size else None

    # ---- the whole vector

    def _words_before(self, position: int) -> int:
        """Past each vector where it is too large for C."""
        position = operator.index(position)
        if position < 0:
            raise ValueError("a position is below 0")
        return min(position * self._form.words, _GREATEST)

    def change(self, start: int, records: Any) -> None:
        """Writes these records over those from position `start` on: all of them or none, also over a crash. ValueError: not all
        are records of the vector. Error OUT_OF_RANGE: it doesn't reach so far; TOO_LARGE: more than a frame has."""
        held, at, count = self._form.lend(records)
        try:
            self._whole(LIB.cvec_vector_change, self._number, self._words_before(start), at, count)
        finally:
            del held

    def resize(self, size: int, record: Any = None) -> None:
        """Takes the records behind the first `size` away, or appends copies of this one, else of zeros, as one block. ValueError:
        it is no record of the vector, or one whose words differ: grow by such. Error UNFOLDED: a change isn't folded, so none is
        taken away; OUT_OF_RANGE: past 2^32 words; TOO_LARGE: more than a frame has."""
        form = self._form
        row = bytes(form.width * form.words) if record is None else form.bytes_of(record)
        if row != row[:form.width] * form.words:
            raise ValueError("no copies of a record whose words differ: grow by them")
        self._whole(LIB.cvec_vector_resize, self._number, self._words_before(size), row)

    def clear(self) -> None:
        """Takes all records away. Error UNFOLDED: a change isn't folded."""
        self._whole(LIB.cvec_vector_clear)

    def fold(self) -> None:
        """Writes what was changed to its place in the file: a write for each word, after which the vector may become shorter."""
        self._whole(LIB.cvec_vector_fold)

    def compact(self) -> None:
        """Puts the records of the growths since the last call of the whole vector behind one another: they take no more memory than
        themselves then, and as many growths as ever may follow."""
        self._whole(LIB.cvec_vector_compact)
