"""Memory of C's that is lent to Python: as arrays of numpy, or as memoryviews without it."""
from __future__ import annotations

import ctypes
import sys
import weakref
from ctypes import POINTER, byref, c_size_t, c_uint8, c_void_p
from typing import Any

from .library import LIB, declare
from .records import numpy


class CBlock(ctypes.Structure):
    """A block that is taken out of its seat."""

    _fields_ = [("at", c_void_p), ("records", c_void_p), ("count", c_size_t)]


declare({"vector_close": [POINTER(c_void_p)]})
LIB.cvec_block_drop.argtypes, LIB.cvec_block_drop.restype = [POINTER(CBlock)], None


def _unseen_by_cycles() -> Any:
    """What takes an object out of the collection of cycles, where Python has that."""
    try:
        call = ctypes.pythonapi["PyObject_GC_UnTrack"]
    except AttributeError:
        return lambda it: None
    call.argtypes, call.restype = [ctypes.py_object], None
    return call


_unseen = _unseen_by_cycles()


class Kept:
    """C's vector, as long as Python's lives, or what is lent of it. The collection of cycles doesn't see it: so it is closed once nobody
    can reach that memory, and not while others of a cycle, at their end, may look there."""

    __slots__ = ("at",)

    def __init__(self) -> None:
        _unseen(self)
        self.at = c_void_p()

    def __del__(self, close: Any = LIB.cvec_vector_close, byref: Any = byref) -> None:
        close(byref(self.at))


class Loan:
    """Memory of a vector is lent as long as one lives, which what is made of that memory keeps."""

    __slots__ = ("__weakref__", "_kept")

    def __init__(self, kept: Kept) -> None:
        _unseen(self)
        self._kept = kept


class BlockLoan(Loan):
    """That of a block, which nobody else has until it is published."""

    __slots__ = ("block",)

    def __init__(self, kept: Kept) -> None:
        super().__init__(kept)
        self.block = CBlock()

    def __del__(self, drop: Any = LIB.cvec_block_drop, byref: Any = byref) -> None:
        if hasattr(self, "block"):
            drop(byref(self.block))


class _Memory:
    """Memory at an address, for an array of numpy, which keeps the loan."""

    __slots__ = ("__array_interface__", "_loan")

    def __init__(self, at: int, size: int, is_written: bool, loan: Loan) -> None:
        self.__array_interface__ = {"version": 3, "data": (at, not is_written), "shape": (size,), "typestr": "|u1"}
        self._loan = loan


def memory_at(at: int, size: int, is_written: bool, loan: Loan) -> Any:
    """So many bytes there, as `seen` of a kind of records takes them."""
    if numpy is not None:
        return numpy.asarray(_Memory(at, size, is_written, loan))
    memory = (c_uint8 * size).from_address(at)
    memory.loan = loan
    return memory


# What counts references, if they are counted exactly, and one that nobody else has.
_COUNT = getattr(sys, "getrefcount", None) if getattr(sys, "_is_gil_enabled", lambda: True)() else None
_PROBE = [object()]


def _references(held: list[Any]) -> int:
    """How many there are to what this list has, but for the list's own."""
    return sys.maxsize if _COUNT is None else _COUNT(held[0]) - _COUNT(_PROBE[0])


def end_writing(rows: list[Any], memory: list[Any]) -> bool:
    """Each list has the only reference here to what it has. The rows can't be written from then on. Whether nothing else could
    write the memory: of numpy's arrays the rows alone are made of it, under one name at most, of memoryviews none."""
    if numpy is not None:
        rows[0].flags.writeable = memory[0].flags.writeable = False
        return _references(rows) <= 1 and _references(memory) <= 1
    try:
        rows.pop().release()
    except BufferError:
        return False
    is_there = weakref.ref(memory.pop())
    return is_there() is None
