"""Records of each type as bytes. None is cut or altered: what its type doesn't have is refused."""
from __future__ import annotations

import itertools
import struct
from typing import Any, Iterator

try:
    import numpy
except ImportError:
    numpy = None


def has_mask(kind: type) -> bool:
    """Whether arrays of this class, and their rows, mask entries: what stands there may be anything, and no range of it is looked
    at."""
    return numpy is not None and kind is not numpy.ndarray and issubclass(kind, numpy.ndarray) and issubclass(kind, numpy.ma.MaskedArray)


def _is_no_record(kind: type) -> bool:
    """Whether what has this class is no record with two fields, though it may have two entries."""
    return issubclass(kind, (bytes, bytearray, memoryview)) or has_mask(kind)


def _are_bytes(records: Any) -> bool:
    """Whether each entry is a byte, which is no number but of u8. A view of numbers may be a piece of a map."""
    return isinstance(records, (bytes, bytearray)) or isinstance(records, memoryview) and records.itemsize == 1


class Form:
    """How the records of a type stand one behind the other: each as `struct` packs it, which is how numpy has it."""

    is_bytes = False

    def __init__(self, format: str, dtype: Any, align: bool = False) -> None:
        self.record = struct.Struct(format)
        self.width = self.record.size
        self.is_number = isinstance(dtype, str) and not self.is_bytes
        self.dtype = numpy and numpy.dtype(dtype, align=align)

    def pack(self, records: Any) -> bytes:
        """The bytes of a row of numbers, of tuples for a type with two fields, or of `bytes` for one of bytes; or of an array of
        numpy with one dimension. A flag is whatever is true or false. ValueError: not all of them are records of the type."""
        if self.width > 1 and _are_bytes(records):
            raise ValueError("no records of the type: bytes")
        if has_mask(type(records)):
            raise ValueError("no records of the type: an array with a mask")
        if numpy is not None and isinstance(records, numpy.ndarray):
            if records.ndim != 1:
                raise ValueError(f"no records of the type: an array with {records.ndim} dimensions")
            if not records.dtype.hasobject:
                return self._pack_array(records)
            records = records.tolist()
        try:
            return b"".join(self._packed(records))
        except (struct.error, TypeError, NotImplementedError, OverflowError) as fault:
            raise ValueError(f"no records of the type: {fault}") from fault

    def _packed(self, records: Any) -> Iterator[bytes]:
        if self.is_number:
            return map(self.record.pack, records)
        records = list(records)
        for kind in filter(_is_no_record, set(map(type, records))):
            raise ValueError(f"no records of the type: one is of {kind.__name__}")
        return itertools.starmap(self.record.pack, records)

    def _pack_array(self, array: Any) -> bytes:
        if array.dtype.names != self.dtype.names:
            raise ValueError(f"no records of the type: an array of {array.dtype}")
        row = numpy.zeros(len(array), dtype=self.dtype)
        for name in self.dtype.names or (...,):
            row[name] = _column(array[name], row[name].dtype)
        return row.tobytes()

    def unpack(self, data: Any) -> Any:
        """The records of these bytes: an array, or a list."""
        return numpy.frombuffer(data, dtype=self.dtype) if numpy is not None else list(self.each(data))

    def each(self, data: Any) -> Iterator[Any]:
        """The records of these bytes, one by one, and none of numpy's."""
        records = self.record.iter_unpack(data)
        return (it for it, in records) if self.is_number or self.is_bytes else records


class FloatForm(Form):
    """That of numbers with a fraction. What the type would round is no record of it, nor a NaN whose bits it would change."""

    def _packed(self, records: Any) -> Iterator[bytes]:
        return map(self._exact, records)

    def _exact(self, record: Any) -> bytes:
        """The bytes of the number. What is masked equals nothing, nor differs from anything."""
        data = self.record.pack(record)
        there, = self.record.unpack(data)
        if there == record or record != record and _DOUBLE.pack(there) == _DOUBLE.pack(record):
            return data
        raise ValueError(f"no records of the type: {record!r} would be another number")

    def _pack_array(self, array: Any) -> bytes:
        if array.dtype.kind in "biu":
            # Python compares whole numbers with these as they are: numpy would round them first.
            return b"".join(self._packed(array.tolist()))
        with numpy.errstate(all="ignore"):
            row = array.astype(self.dtype) if array.dtype.char in "efd" else None
            if row is None or row.astype(array.dtype).tobytes() != array.tobytes():
                raise ValueError(f"no records of the type: an array of {array.dtype}, or numbers that would be others")
        return row.tobytes()


class BytesForm(Form):
    """That of a type whose records are any bytes of one length. In an array they are of V, since S takes zeros off their ends."""

    is_bytes = True

    def __init__(self, width: int) -> None:
        super().__init__(f"{width}s", f"V{width}")

    def _packed(self, records: Any) -> Iterator[bytes]:
        return map(self._whole, records)

    def _whole(self, record: Any) -> Any:
        """The record. `struct` would cut one that is longer, and put zeros behind one that is shorter."""
        if isinstance(record, bytes) and len(record) == self.width:
            return record
        # What an array has when it is read record by record.
        if numpy is not None and isinstance(record, numpy.void) and record.dtype == self.dtype:
            return record
        raise ValueError(f"no records of the type: {record!r} isn't {self.width} bytes")

    def _pack_array(self, array: Any) -> bytes:
        if array.dtype != self.dtype:
            raise ValueError(f"no records of the type: an array of {array.dtype}")
        return array.tobytes()


def _column(values: Any, dtype: Any) -> Any:
    """The values as this type has them."""
    if values.dtype == bool:
        # A view of other bytes may have flags that are neither 0 nor 1.
        values = values.view("u1") != 0
    elif values.dtype.kind not in "iu":
        raise ValueError(f"no records of the type: an array of {values.dtype}")
    if dtype == bool:
        return values != 0
    limits = numpy.iinfo(dtype)
    if len(values) > 0 and not limits.min <= int(values.min()) <= int(values.max()) <= limits.max:
        raise ValueError(f"no records of the type: from {values.min()} to {values.max()}")
    return values


# The bits of a number of Python with a fraction.
_DOUBLE = struct.Struct("<d")

# The forms that the types have in a file.
IN_FILE = {
    "u8": Form("<B", "u1"),
    "u16": Form("<H", "<u2"),
    "u32": Form("<I", "<u4"),
    "u64": Form("<Q", "<u8"),
    "i32": Form("<i", "<i4"),
    "i64": Form("<q", "<i8"),
    "f32": FloatForm("<f", "<f4"),
    "f64": FloatForm("<d", "<f8"),
    "pair": Form("<Qq", [("key", "<u8"), ("value", "<i8")]),
    "flagged": Form("<Q?", [("key", "<u8"), ("flag", "?")]),
    **{f"bytes{width}": BytesForm(width) for width in (16, 24, 32, 64)},
}

# Those that C has: a flagged is as wide as what is aligned to its key.
IN_C = {**IN_FILE, "flagged": Form("<Q?7x", [("key", "<u8"), ("flag", "?")], align=True)}
