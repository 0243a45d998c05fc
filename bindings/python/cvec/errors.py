"""Why a call was refused."""
from __future__ import annotations

import enum
import os
from typing import Any


class Status(enum.IntEnum):
    """Why a call was refused, by the names of cvec.h, which says more of each."""

    UNBORN = 1
    NOT_SEGMENT = 2
    VERSION = 3
    WIDTH = 4
    DAMAGED = 5
    MEMORY = 6
    EMPTY = 7
    OUT_OF_RANGE = 8
    TOO_LARGE = 9
    FILE_FULL = 10
    NO_ROOM = 11
    NO_FRAME = 12
    NO_RECORD = 13
    EXISTS = 32
    IN_USE = 33
    BROKEN = 34
    DISK_OPEN = 35
    DISK_LENGTH = 36
    DISK_READ = 37
    DISK_WRITE = 38
    DISK_SYNC = 39
    FORKED = 40
    NOT_FILE = 41
    READ_ONLY = 42
    NOT_SO = 64
    AGAIN = 65
    FULL = 66
    BUSY = 67
    LATE = 68
    UNFOLDED = 69
    UNSETTLED = 70
    GONE = 96
    REFUSED_UNKNOWN_KIND = 97
    REFUSED_STRAY_NUMBER = 98
    REFUSED_NO_RECORD = 99
    REFUSED_TOO_MANY = 100
    REFUSED_BAD_RECORD = 101
    REFUSED_NO_MEMORY = 102
    REFUSED_GROWTH_MEMORY = 103
    REFUSED_CLOSED = 104
    REFUSED_FULL = 105
    REFUSED_TOO_LONG = 106
    REFUSED_STRAYED = 107
    REFUSED_ENDED = 108
    REFUSED_BROKEN = 109


# Those of which errno says why.
OF_SYSTEM = range(Status.DISK_OPEN, Status.DISK_SYNC + 1)


class Error(Exception):
    """A refusal: its `status`, a `Status`, and the `errno` of the system's call that failed, else 0. Nothing was done. Of a damaged file
    `at`, `cause` and `found` say where and why, as a `cvec_fault` of cvec.h."""

    at = cause = found = 0

    def __init__(self, status: int, text: str, errno: int = 0) -> None:
        super().__init__(f"{text}: {os.strerror(errno)}" if errno else text)
        self.status, self.errno = Status._value2member_map_.get(status, status), errno

    def __reduce__(self) -> Any:
        """With the status: `pickle` passes the text alone to another process, of which no Error is made."""
        return type(self), (self.status, *self.args), self._state()

    def _state(self) -> dict[str, Any]:
        return self.__dict__


class FileError(Error, OSError):
    """The system refused a call of the file: an OSError too, with `errno` and `filename`."""

    def __init__(self, status: int, text: str, errno: int = 0, filename: Any = None) -> None:
        super().__init__(status, text, errno)
        self.strerror, self.filename = os.strerror(errno) if errno else None, filename

    def _state(self) -> dict[str, Any]:
        return {**self.__dict__, "errno": self.errno, "strerror": self.strerror, "filename": self.filename}

    def __str__(self) -> str:
        return f"{self.args[0]}: {self.filename!r}"


class MissingFileError(FileError, FileNotFoundError):
    """There is no such file or folder."""


class DeniedFileError(FileError, PermissionError):
    """This user may not open it."""


# By what Python makes of an errno.
_KINDS = {FileNotFoundError: MissingFileError, PermissionError: DeniedFileError}


def error_of_system(status: int, text: str, errno: int, filename: Any) -> FileError:
    """Of the kind that Python has for that errno."""
    return _KINDS.get(type(OSError(errno, "")), FileError)(status, text, errno, filename)
