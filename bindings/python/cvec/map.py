"""A file that is mapped: its records are read where they stand in it, by ctypes over libcvec.so.

    with Map("numbers.cvec", "u64") as seen:
        for piece in seen.pieces():              # the mapped file itself, nothing is copied
            ..."""
from __future__ import annotations

import ctypes
import mmap
import os
from ctypes import POINTER, byref, c_size_t, c_uint8, c_uint16, c_uint32, c_uint64, c_void_p
from stat import S_ISREG
from typing import Any, Iterator

from .errors import Status
from .file import Stat
from .handles import Described
from .kinds import kind_of
from .library import LIB, NUMBERS, Fault, declare, error_of, name_of

FIRST_GATE = 11
GROUP, CHANGE, SHRINK, FOLD = 1, 2, 3, 4


class Frame(ctypes.Structure):
    """A frame of the file, as a `cvec_frame` of cvec/proved.h."""

    _fields_ = [("first_record", c_uint64), ("next", c_uint64), ("payload_len", c_uint32), ("growths", c_uint32),
                ("records", c_uint32), ("kind", c_uint8)]


class Home(ctypes.Structure):
    """Consecutive positions, whose records stand one behind the other."""

    _fields_ = [("position", c_uint64), ("place", c_uint64), ("count", c_uint64)]


declare({
    "image_homes": [c_uint32, c_void_p, c_size_t, POINTER(Home), c_size_t, POINTER(c_uint64), POINTER(Stat), POINTER(Fault)],
    "image_frame": [c_void_p, c_size_t, c_uint64, c_uint8, c_uint16, POINTER(Frame)],
})


def _open_to_map(path: Any) -> Any:
    """The file for reading. None that isn't one is opened, since that might wait, or do more."""
    name = name_of(path)
    try:
        if not S_ISREG(os.stat(name).st_mode):
            raise error_of(Status.NOT_FILE)
        return open(name, "rb")
    except OSError as fault:
        raise error_of(Status.DISK_OPEN, path, errno=fault.errno) from None


class Map(Described):
    """A file that is mapped, and checked when it was: its records are seen where they stand in it. Another process may append to
    it, change records and take some away, both while it is mapped and later: what is seen is the vector of one moment of the
    mapping, whose last growth needn't be on the device yet. The file must not be folded or cut meanwhile. A device that fails
    ends the process, as with any map (SIGBUS)."""

    def __init__(self, path: Any, type: str = "u64", *, dtype: Any = None) -> None:
        self._form, self._path, self.stat = kind_of(type, dtype), os.fspath(path), Stat()
        with _open_to_map(path) as file:
            if os.fstat(file.fileno()).st_size == 0:
                raise error_of(Status.UNBORN)
            # A private map, since ctypes takes the address of what may be written alone. No file gets what is written there.
            self._map: Any = mmap.mmap(file.fileno(), 0, access=mmap.ACCESS_COPY)
            self._bytes: Any = (c_uint8 * len(self._map)).from_buffer(self._map)
            self._end_at_last_gate(file.fileno())
        try:
            self.homes = self._find_homes()
        except Exception:
            self.close()
            raise

    def _end_at_last_gate(self, descriptor: int) -> None:
        """Keeps the gate at which the frames end now: a page that is written is the map's own, and sees no writer any more. A
        writer would open it while homes are looked for, of a frame that may end behind the map."""
        seen, length, kept = self._bytes, len(self._bytes), None
        before, gate = self._walk(0, FIRST_GATE)
        while gate < length and gate != kept:
            seen[gate], kept = seen[gate], gate
            # It may have been opened before.
            before, gate = self._walk(before, gate)
        last = gate if gate < length else before
        value = seen[last]
        # A frame that ends behind the map was shut yet when it was mapped, unless the file is cut there.
        seen[last] = 0 if os.fstat(descriptor).st_size > length else value

    def _walk(self, before: int, gate: int) -> tuple[int, int]:
        """From this gate on, and the one before it, over whole frames: the gate at which no frame begins, and the one before it."""
        call, frame, start, length = LIB.cvec_image_frame, Frame(), ctypes.addressof(self._bytes), len(self._bytes)
        version, width, told = self._bytes[8] if length > 8 else 0, self._form.width_in_file, byref(frame)
        while call(start, length, gate, version, width, told) == 0:
            before, gate = gate, frame.next
        return before, gate

    def _find_homes(self) -> list[Home]:
        """Where the words of the file stand, each home once."""
        fault, count, room, number = Fault(), c_uint64(), 1024, NUMBERS[self._form.word]
        start, length, told = ctypes.addressof(self._bytes), len(self._map), (byref(count), byref(self.stat), byref(fault))
        while True:
            row = (Home * room)()
            status = LIB.cvec_image_homes(number, start, length, row, room, *told)
            if status != Status.NO_ROOM:
                break
            room = count.value
        if status != 0:
            raise error_of(status, self._path, fault)
        if self.stat.size % self._form.words != 0 or any(it.count % self._form.words != 0 for it in row[:count.value]):
            raise ValueError(f"the words that stand in a row are no whole records of {self._form.name}")
        return row[:count.value]

    def __enter__(self) -> Map:
        return self

    def __exit__(self, *_: Any) -> None:
        self.close()

    def __len__(self) -> int:
        return self.stat.size // self._form.words

    @property
    def closed(self) -> bool:
        return self._map is None

    @property
    def dtype(self) -> Any:
        return self._form.dtype_in_file

    def _open_map(self) -> Any:
        if self._map is None:
            raise ValueError("the map is closed")
        return self._map

    def frames(self) -> Iterator[tuple[int, Frame]]:
        """The file's frames, each with the place of its gate."""
        at = FIRST_GATE
        while at < self.stat.gate:
            frame = self._frame_at(at)
            yield at, frame
            at = frame.next

    def _frame_at(self, at: int) -> Frame:
        # Another thread may close the map during the call, which has it by a name of its own.
        held, seen, frame = self._bytes, self._open_map(), Frame()
        status = LIB.cvec_image_frame(ctypes.addressof(held), len(seen), at, self.stat.version, self.stat.width, byref(frame))
        if status != 0:
            raise error_of(status)
        return frame

    def is_plain(self) -> bool:
        """Whether the records stand in their homes: no change is live."""
        return self.stat.changes <= self.stat.folded

    def pieces(self) -> Iterator[Any]:
        """The vector in pieces, each a view on the file: an array of numpy, or a memoryview of numbers or of bytes. Only of
        a file that is plain."""
        if not self.is_plain():
            raise ValueError("a change is live: read a copy")
        for home in self.homes:
            if home.count > 0:
                yield self._form.view(self._open_map(), home.place, home.count // self._form.words)

    def records(self) -> Iterator[Any]:
        """The records of the pieces, one by one."""
        for piece in self.pieces():
            yield from self._form.each_of(piece)

    def close(self) -> None:
        """Lets go of the file. Pieces that are still held keep the map."""
        # In this order: who has found the map has its bytes.
        self._map = self._bytes = None
