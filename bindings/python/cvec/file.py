"""A file that one process appends to, and others read beside, by ctypes over libcvec.so.

    with File.create("numbers.cvec", "u64") as file:
        file.append([5, 7, 11])                  # durable when it returns
    with File.open("numbers.cvec", "u64") as file:
        print(file.read())                       # a copy of all records
    with File.open_to_read("numbers.cvec", "u64") as file:
        print(len(file), file.read())            # beside another process that writes it; each read is of one moment

With numpy, records are arrays; without it they are lists, of tuples and bytes for the types with two fields or of bytes. One of bytes16,
bytes24, bytes32 or bytes64 is a `bytes` of that length, and in an array a V, as numpy has it. A number that f32 or f64 would round is
none of its records. The bits of a NaN are kept, but a number of Python has 64: as one, a NaN of f32 that signals may become quiet.
Threads may share a file: its calls take turns. A file says how wide its records are and not of which type: one of u64 is opened as i64
too."""
from __future__ import annotations

import contextlib
import ctypes
import os
import threading
from ctypes import POINTER, byref, c_size_t, c_uint8, c_uint16, c_uint32, c_uint64, c_void_p
from typing import Any

from .errors import Error, Status
from .handles import Described, Single
from .kinds import kind_of
from .library import LIB, NUMBERS, Fault, declare, error_of, name_of


class Stat(ctypes.Structure):
    """What a file holds, as a `cvec_stat` of cvec.h: `size` counts what the file has as records, of which a row of a dtype may be
    several."""

    _fields_ = [("size", c_uint64), ("frames", c_uint64), ("changes", c_uint64), ("folded", c_uint64), ("gate", c_uint64),
                ("width", c_uint16), ("version", c_uint8)]


_OPEN = [POINTER(c_void_p), ctypes.c_char_p, c_uint32, POINTER(Fault)]
declare({
    "file_create": [POINTER(c_void_p), ctypes.c_char_p, c_uint32, c_uint8],
    "file_open": _OPEN,
    "file_open_to_read": _OPEN,
    "file_append": [c_void_p, c_uint32, c_void_p, c_size_t],
    "file_read": [c_void_p, c_uint32, c_uint64, c_void_p, c_size_t, POINTER(c_uint64), POINTER(Fault)],
    "file_stat": [c_void_p, POINTER(Stat)],
})
LIB.cvec_file_close.argtypes, LIB.cvec_file_close.restype = [POINTER(c_void_p)], None


class File(Single, Described):
    """A file that is open for reading and appending, by the process that opened it: `create`, `open` and `open_or_create` make one.
    One of `open_to_read` is read alone, each time anew.

    Each takes the type of the records, u8, u16, u32, u64, i32, i64, f32, f64, pair, flagged, bytes16, bytes24, bytes32 or bytes64; or a
    type of numpy of 1 to 256 bytes, whose records are rows of words, as those of a `Vector` are. The file has their bytes, and doesn't
    say which type."""

    def __init__(self, path: Any, type: str, dtype: Any, is_to_read: bool = False) -> None:
        """Not to be called: `create`, `open`, `open_or_create` and `open_to_read` do."""
        # First what a close takes.
        self._handle, self._process, self._lock = c_void_p(), LIB.cvec_process(), threading.RLock()
        self._form, self._path, self._is_to_read = kind_of(type, dtype), os.fspath(path), is_to_read
        self._number = NUMBERS[self._form.word]

    @classmethod
    def create(cls, path: Any, type: str = "u64", *, dtype: Any = None, version: int = 1) -> File:
        """Makes a file of version 1, or 2. One that is there stays, and is refused (EXISTS)."""
        # Of a larger number C would see a part.
        return cls(path, type, dtype)._begun(LIB.cvec_file_create, version if version in (1, 2) else 0)

    @classmethod
    def open(cls, path: Any, type: str = "u64", *, dtype: Any = None) -> File:
        """Opens a file that is there, and checks it."""
        return cls(path, type, dtype)._begun(LIB.cvec_file_open)

    @classmethod
    def open_or_create(cls, path: Any, type: str = "u64", *, dtype: Any = None, version: int = 1) -> File:
        """As `open`, or as `create` where there is no such file, or what a stopped creation leaves."""
        try:
            return cls.open(path, type, dtype=dtype)
        except Error as refusal:
            if refusal.status != Status.UNBORN and not isinstance(refusal, FileNotFoundError):
                raise
        try:
            return cls.create(path, type, dtype=dtype, version=version)
        except Error as refusal:
            if refusal.status != Status.EXISTS:
                raise
        # Another program has made it meanwhile.
        return cls.open(path, type, dtype=dtype)

    @classmethod
    def open_to_read(cls, path: Any, type: str = "u64", *, dtype: Any = None) -> File:
        """Opens a file for reading alone, and checks it: also while another process writes it, without a lock, and with no leave
        to write."""
        return cls(path, type, dtype, is_to_read=True)._begun(LIB.cvec_file_open_to_read)

    def _begun(self, call: Any, *words: int) -> File:
        """Opens it by this call, whose last words these are, or a fault."""
        fault = Fault()
        try:
            self._pass(call(byref(self._handle), name_of(self._path), self._number, *(words or [byref(fault)])), fault)
            self._check_rows()
            return self
        except BaseException:
            # An interrupt may come as soon as C has opened it.
            self.close()
            raise

    def _check_rows(self) -> None:
        if self._known().size % self._form.words != 0:
            raise ValueError(f"its words are no whole records of {self._form.name}")

    def _pass(self, status: int, fault: Fault | None = None) -> None:
        if status == Status.NOT_SO:
            raise Error(Status.NOT_SO, "closed")
        if status != 0:
            raise error_of(status, self._path, fault)

    def __enter__(self) -> File:
        return self

    def __exit__(self, *_: Any) -> None:
        self.close()

    def __len__(self) -> int:
        return self.stat.size // self._form.words

    @property
    def closed(self) -> bool:
        return not self._handle

    def _is_forked(self) -> bool:
        """Whether this process isn't the one that opened it. A thread that held the lock then never lets go of it here."""
        return self._process != LIB.cvec_process()

    def _turn(self) -> Any:
        """The lock under which a call is made: ctypes lets other threads run meanwhile."""
        if self._is_forked():
            raise error_of(Status.FORKED)
        return self._lock

    @property
    def stat(self) -> Stat:
        """What the file holds now."""
        with self._turn():
            if self._is_to_read:
                self._read(0, 0)
            return self._known()

    def _known(self) -> Stat:
        """What it holds, or held when it was last read."""
        stat = Stat()
        self._pass(LIB.cvec_file_stat(self._handle, byref(stat)))
        return stat

    def append(self, records: Any) -> None:
        """Appends the records as one growth: durable when it returns, and all of them or none whatever happens. ValueError:
        not all are records of the type, and nothing was appended."""
        held, at, count = self._form.lend(records)
        try:
            with self._turn():
                self._pass(LIB.cvec_file_append(self._handle, self._number, at, count))
        finally:
            # A traceback must not keep an array from being resized.
            del held

    def read(self, start: int = 0, count: int | None = None) -> Any:
        """A copy of the records from a position on, all of them or so many; of a file that another process writes as they
        are at one moment."""
        if start < 0:
            raise ValueError("a position is below 0")
        with self._turn():
            slack = 0
            while True:
                room = self._left(start, count, slack)
                row, done = self._read(start, room)
                # One that is only read may have grown. It is read again, as all of it is of one moment; with room for what comes
                # meanwhile, or it would never end beside one who appends without rest.
                if self._left(start, count) <= room:
                    break
                slack = 2 * slack + 1000
        return self._form.unpack_memory((c_uint8 * (done * self._form.words * self._form.width)).from_buffer(row))

    def _left(self, start: int, count: int | None, slack: int = 0) -> int:
        left = max(0, self._known().size // self._form.words - start) + slack
        return left if count is None else min(left, count)

    def _read(self, start: int, room: int) -> tuple[Any, int]:
        """So many records, in memory as C has them, and how many of them there are."""
        fault, done, words = Fault(), c_uint64(), self._form.words
        row = (c_uint64 * ((room * words * self._form.width + 7) // 8))()
        at = ctypes.addressof(row)
        self._pass(LIB.cvec_file_read(self._handle, self._number, start * words, at, room * words, byref(done), byref(fault)), fault)
        return row, done.value // words

    def __array__(self, dtype: Any = None, copy: bool | None = None) -> Any:
        """For numpy: a copy of the records."""
        if copy is False:
            raise ValueError("the records of a File are always copied: a Map shows them where they stand")
        return self.read() if dtype is None else self.read().astype(dtype, copy=False)

    def close(self) -> None:
        """Closes the file. What was appended stands."""
        with contextlib.nullcontext() if self._is_forked() else self._lock:
            LIB.cvec_file_close(byref(self._handle))

    __del__ = close
