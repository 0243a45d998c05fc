"""What the records of a file or a vector are: of one of its types, or of a type of numpy, each of which is a row of a file's records. A
type of numpy has one format, whatever it is kept in: the file has its bytes, as one record where a type has its size (1, 2, 4, 8, 16,
24, 32 or 64 bytes), else as words of 8 bytes where its size is a multiple of that, else of 4, 2 or 1."""
from __future__ import annotations

import array
import contextlib
import ctypes
import numbers
from typing import Any

from .records import IN_C, IN_FILE, FloatForm, has_mask, numpy

GREATEST_ROW = 256
# The types as `array` has them.
_CODES = {"u8": "B", "u16": "H", "u32": "I", "u64": "Q", "i32": "i", "i64": "q", "f32": "f", "f64": "d"}
# What a row of such a size is one record of, and the words of others, the widest first.
_ONE_RECORD = {16: "bytes16", 24: "bytes24", 32: "bytes32", 64: "bytes64"}
_WORDS = {8: "u64", 4: "u32", 2: "u16", 1: "u8"}


def kind_of(type: str, dtype: Any = None) -> Records | Rows:
    """Of a type's name, or of a type of numpy."""
    if dtype is None:
        return Records(type)
    if type != "u64":
        raise ValueError("records are of a type or of a dtype, not of both")
    return Rows(dtype)


def address_of(room: Any) -> int:
    return room.buffer_info()[0] if isinstance(room, array.array) else room.__array_interface__["data"][0]


class Records:
    """Records of a type of the file: each is one of its."""

    words = 1

    def __init__(self, name: str) -> None:
        if not isinstance(name, str):
            raise TypeError(f"a type of records is a name as 'u64', and a type of numpy is passed as dtype=; so {name!r} is neither")
        if name not in IN_FILE:
            raise ValueError(f"there is no type {name} of records: they are {', '.join(IN_FILE)}")
        self.name = self.word = name
        self._code, self.form, self._in_file = _CODES.get(name), IN_C[name], IN_FILE[name]
        # That of arrays in memory, and of what stands in a file.
        self.dtype, self.dtype_in_file = self.form.dtype, self._in_file.dtype
        # Of a word in memory, which is a record; and in a file.
        self.width, self.width_in_file = self.form.width, self._in_file.width

    def check_arrays(self) -> None:
        """Without numpy arrays are those of `array`, which are of numbers."""
        if numpy is None and self._code is None:
            raise ValueError(f"records of {self.name} need numpy")

    def pack(self, records: Any) -> bytes:
        """The bytes of records as a file has them."""
        return self._in_file.pack(records)

    def unpack(self, data: Any) -> Any:
        """The records of such bytes: an array, or a list."""
        return self._in_file.unpack(data)

    def view(self, seen: Any, at: int, count: int) -> Any:
        """So many records of a file's bytes, from there on, to be read alone: an array, or a memoryview of numbers or of bytes."""
        if numpy is not None:
            return _frozen(seen, self.dtype_in_file, at, count)
        rows = memoryview(seen).toreadonly()[at:at + count * self.width_in_file]
        return rows.cast(self._code) if self._code else rows

    def each_of(self, view: Any) -> Any:
        """The records of such a view, one by one."""
        return view.tolist() if numpy is not None else self._in_file.each(view)

    def _is_lent(self, records: Any) -> bool:
        """Whether it stands in memory as C reads it. Flags may be bytes that are neither 0 nor 1, so they are copied."""
        flags = records.flags
        is_plain = self._code is not None and records.dtype == self.dtype and not has_mask(type(records))
        return is_plain and records.ndim == 1 and flags.c_contiguous and flags.aligned

    def lend(self, records: Any) -> tuple[Any, Any, int]:
        """What has to live while C reads the records, where they stand, and how many words they are. No copy is made of an
        array of the same numbers in one row."""
        if numpy is not None and isinstance(records, numpy.ndarray):
            if self._is_lent(records):
                return records, address_of(records), len(records)
        elif isinstance(records, array.array) and records.typecode == self._code and records:
            seen = ctypes.c_uint8.from_buffer(records)
            return seen, ctypes.addressof(seen), len(records)
        packed = self.form.pack(records)
        return packed, packed, len(packed) // self.width

    def room(self, count: int) -> Any:
        """An array of so many records to be written."""
        if numpy is None:
            return array.array(self._code, bytes(self.width * count))
        return numpy.empty(count, dtype=self.dtype)

    def unpack_memory(self, memory: Any) -> Any:
        """The records that C has written there: an array, or a list."""
        return self.form.unpack(memory)

    def are_cast(self, dtype: Any) -> bool:
        """Whether records are numbers, and are written to an array of this dtype, one of other numbers."""
        return dtype.kind in "biufc" and self.form.is_number and dtype != self.dtype

    def seen(self, memory: Any) -> Any:
        """The records that this memory has, which they keep."""
        return memoryview(memory).cast("B").cast(self._code) if numpy is None else memory.view(self.dtype)

    def fill(self, rows: Any, at: int, records: Any) -> None:
        """Copies records into those that are seen so, from there on."""
        rows[at:at + len(records)] = records

    def has(self, vector: Any, record: Any) -> bool:
        """Whether a record of the vector equals this. C finds whole numbers, and bytes; of numbers with a fraction some are equal whose
        bytes aren't."""
        if not isinstance(self.form, FloatForm):
            if self.form.is_number and isinstance(record, numbers.Real):
                return self._has_whole(vector, record)
            with contextlib.suppress(ValueError):
                return vector.find(record) is not None
        return any(record in rows for rows in vector._lists())

    def _has_whole(self, vector: Any, number: Any) -> bool:
        """It equals none but a whole one of the type."""
        try:
            return int(number) == number and vector.find(int(number)) is not None
        except (ValueError, OverflowError):
            return False

    def bytes_of(self, record: Any) -> bytes:
        """The bytes of a record as C has it."""
        return self.form.pack([record])

    def one(self, rows: Any) -> Any:
        return rows[0] if isinstance(rows, array.array) else rows[0].item()

    def each(self, rows: Any) -> list[Any]:
        """The records, of which none is in the memory of these."""
        return rows.tolist()


def _frozen(seen: Any, dtype: Any, at: int, count: int) -> Any:
    view = numpy.frombuffer(seen, dtype=dtype, count=count, offset=at)
    view.flags.writeable = False
    return view


def _is_kept(there: Any, value: Any) -> bool:
    """Whether a field has this value, as Python has it."""
    if isinstance(there, (tuple, list, numpy.ndarray)):
        return len(there) == len(value) and all(map(_is_kept, there, value))
    return bool(there == value or there != there and value != value)


class Rows:
    """Records of a type of numpy: each is a row of words, with the bytes that it has in memory."""

    def __init__(self, dtype: Any) -> None:
        if numpy is None:
            raise ValueError("a dtype needs numpy")
        try:
            self.dtype = self.dtype_in_file = numpy.dtype(dtype)
        except TypeError as fault:
            is_type = isinstance(dtype, str) and dtype in IN_FILE
            raise ValueError(f"{dtype!r} is no dtype" + (f": pass it as type={dtype!r}" if is_type else "")) from fault
        self.name, size = str(self.dtype), self.dtype.itemsize
        if self.dtype.hasobject or self.dtype.subdtype is not None:
            raise ValueError(f"no records of {self.dtype} can be kept")
        if not 1 <= size <= GREATEST_ROW:
            raise ValueError(f"a record takes {size} bytes: it may take 1 to {GREATEST_ROW}")
        self._alignment = next(it for it in _WORDS if size % it == 0)
        self.width = self.width_in_file = size if size in _ONE_RECORD else self._alignment
        self.word, self.words = (_ONE_RECORD | _WORDS)[self.width], size // self.width
        # A record as bytes alone: of one with fields numpy copies these, and not what is between them.
        self._raw = numpy.dtype(f"V{size}")

    def check_arrays(self) -> None:
        pass

    def _of_tuples(self, records: Any) -> Any:
        """An array of records that are tuples of a value for each field, if it has just these."""
        fault: Exception | None = None
        try:
            records = list(records)
            rows = numpy.zeros(len(records), dtype=self.dtype)
            if self.dtype.names and all(isinstance(it, tuple) for it in records):
                with numpy.errstate(all="ignore"):
                    rows[:] = records
                if all(map(_is_kept, rows.tolist(), records)):
                    return rows
        # As numpy 1 warns where a number is outside a field.
        except (TypeError, ValueError, OverflowError, DeprecationWarning) as it:
            fault = it
        raise ValueError(f"no records of the type: neither an array of {self.dtype} with one dimension, and no mask, nor tuples of it") from fault

    def lend(self, records: Any) -> tuple[Any, Any, int]:
        if not isinstance(records, numpy.ndarray):
            records = self._of_tuples(records)
        if has_mask(type(records)) or records.dtype != self.dtype or records.ndim != 1:
            raise ValueError(f"no records of the type: not an array of {self.dtype} with one dimension, and no mask")
        row = numpy.asarray(records).view(self._raw)
        if not row.flags.c_contiguous or address_of(row) % self._alignment != 0:
            row = row.copy()
        return row, address_of(row), len(row) * self.words

    def pack(self, records: Any) -> bytes:
        return self.lend(records)[0].tobytes()

    def unpack(self, data: Any) -> Any:
        return numpy.frombuffer(data, dtype=self.dtype)

    unpack_memory = unpack

    def view(self, seen: Any, at: int, count: int) -> Any:
        return _frozen(seen, self.dtype, at, count)

    def each_of(self, view: Any) -> Any:
        return view.tolist()

    def are_cast(self, dtype: Any) -> bool:
        return dtype.kind in "biufc" and self.dtype.kind in "biufc" and dtype != self.dtype

    def seen(self, memory: Any) -> Any:
        return memory.view(self.dtype)

    def room(self, count: int) -> Any:
        return numpy.empty(count, dtype=self.dtype)

    def fill(self, rows: Any, at: int, records: Any) -> None:
        if rows.dtype == self.dtype:
            rows, records = rows.view(self._raw), records.view(self._raw)
        rows[at:at + len(records)] = records

    def has(self, vector: Any, record: Any) -> bool:
        """By the values: those of some types are equal though their bytes aren't."""
        if isinstance(record, tuple):
            try:
                record = self._of_tuples([record])[0]
            except ValueError:
                return False
        if isinstance(record, numpy.generic) and (record.dtype == self.dtype or self._is_of_type(record.dtype)):
            return vector._has_row(record)
        return any(it == record for it in vector)

    def bytes_of(self, record: Any) -> bytes:
        if isinstance(record, numpy.generic):
            if record.dtype == self.dtype:
                return record.tobytes()
            if self._is_of_type(record.dtype):
                return numpy.array(record, dtype=self.dtype).tobytes()
        if isinstance(record, tuple):
            return self._of_tuples([record]).tobytes()
        raise ValueError(f"no record of the type: not one of {self.dtype}")

    def _is_of_type(self, dtype: Any) -> bool:
        """Whether what has this dtype, which isn't ours, may be a record still: numpy gives a number in the machine's order of bytes,
        and a text without the zeros at its end."""
        own = self.dtype
        if own.kind in "SU":
            return dtype.kind == own.kind and dtype.itemsize <= own.itemsize
        return own.names is None and dtype == own.newbyteorder("=")

    def one(self, rows: Any) -> Any:
        return rows[0]

    def each(self, rows: Any) -> Any:
        """A copy of what is lent: a record with fields shows the memory that it is of."""
        if rows.flags.writeable:
            return rows
        room = self.room(len(rows))
        self.fill(room, 0, rows)
        return room
