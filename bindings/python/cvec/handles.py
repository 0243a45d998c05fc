"""What vectors, files and maps have in common."""
from __future__ import annotations

from typing import Any

from .kinds import Records, Rows


class Single:
    """What there is once, as C has it: the end of a copy would be its own."""

    def __reduce__(self) -> Any:
        """Neither `copy` nor `pickle` makes another."""
        raise TypeError(f"a {type(self).__name__} can't be copied")


class Described:
    """What has records of a file, and tells of which and what."""

    _path: str | bytes
    _form: Records | Rows

    @property
    def closed(self) -> bool:
        raise NotImplementedError

    def __len__(self) -> int:
        raise NotImplementedError

    @property
    def path(self) -> str | bytes:
        """The file's, as it was passed."""
        return self._path

    @property
    def dtype(self) -> Any:
        """That of its arrays; None without numpy."""
        return self._form.dtype

    @property
    def shape(self) -> tuple[int]:
        return (len(self),)

    def __repr__(self) -> str:
        return f"<{type(self).__name__} {self.path!r} of {self._form.name}{', closed' if self.closed else ''}>"
