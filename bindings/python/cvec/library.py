"""The shared library for C, by ctypes, and what each of its users asks of it."""
from __future__ import annotations

import ctypes
import os
from ctypes import c_size_t, c_uint16, c_uint32, c_uint64
from typing import Any

from .errors import OF_SYSTEM, Error, Status, error_of_system


class Fault(ctypes.Structure):
    """Where and why a file has no vector."""

    _fields_ = [("at", c_uint64), ("cause", c_uint32), ("found", c_uint32)]


class _TypeOf(ctypes.Structure):
    _fields_ = [("name", ctypes.c_char_p), ("width", c_uint16), ("size", c_uint16)]


def _loaded() -> ctypes.CDLL:
    folder = os.environ.get("CVEC_LIB") or os.path.dirname(os.path.abspath(__file__))
    path = os.path.join(folder, "libcvec.so")
    if not os.path.exists(path):
        raise ImportError(f"there is no {path}: `make libraries` in the repository makes it, and CVEC_LIB names the folder that has it")
    return ctypes.CDLL(path, use_errno=True)


LIB = _loaded()
LIB.cvec_process.argtypes, LIB.cvec_process.restype = [], c_uint64
for _name in ("cvec_status_text", "cvec_cause_text"):
    getattr(LIB, _name).argtypes, getattr(LIB, _name).restype = [c_uint32], ctypes.c_char_p


def declare(calls: dict[str, list[Any]]) -> None:
    """These calls of the library take such words, and answer a status."""
    for name, words in calls.items():
        call = getattr(LIB, "cvec_" + name)
        call.argtypes, call.restype = words, c_uint32


def _numbers() -> dict[str, int]:
    count = c_size_t()
    LIB.cvec_types.restype = ctypes.POINTER(_TypeOf)
    types = LIB.cvec_types(ctypes.byref(count))
    return {types[number].name.decode(): number for number in range(count.value)}


# The numbers that C has for the types of records, by their names.
NUMBERS = _numbers()


def error_of(status: int, path: Any = None, fault: Fault | None = None, errno: int | None = None) -> Error:
    """To be asked right behind the call that answered this status, about the file of that path."""
    text = LIB.cvec_status_text(status).decode()
    if fault is not None and status == Status.DAMAGED:
        text += f" at {fault.at}: {LIB.cvec_cause_text(fault.cause).decode()}"
    if fault is not None and status == Status.NO_RECORD:
        text += f" at position {fault.at}"
    if status in OF_SYSTEM:
        return error_of_system(status, text, ctypes.get_errno() if errno is None else errno, path)
    refusal = Error(status, text)
    if fault is not None:
        refusal.at, refusal.cause, refusal.found = fault.at, fault.cause, fault.found
    return refusal


def name_of(path: Any) -> bytes:
    """The path as C has it."""
    name = os.fsencode(path)
    if b"\0" in name:
        raise ValueError("a path has a zero byte")
    return name
