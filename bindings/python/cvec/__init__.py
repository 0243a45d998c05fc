"""A durable vector in a file: docs/use/python.md says which of these to take when.

    cvec.Vector    threads of this process grow and read one vector
    cvec.File      one process appends to a file, and others read it beside
    cvec.Map       a file whose records are read where they stand in it
    cvec.Server    several processes grow one vector, by `cvec serve`
    cvec.cut       a file at one moment, as arrays of numpy
    cvec.dask      many files of many hosts, by Dask distributed

Each is loaded where it is first asked for. The first three take libcvec.so: that of the folder that the environment's CVEC_LIB names,
and else the one that stands beside these modules."""
from __future__ import annotations

import importlib
from typing import TYPE_CHECKING, Any

if TYPE_CHECKING:
    from . import cut, dask
    from .errors import Error, FileError, Status
    from .file import File
    from .map import Map
    from .server import Gone, Refused, Server
    from .vector import Receipt, Vector

_MODULES = {
    "Error": "errors", "FileError": "errors", "Status": "errors", "File": "file", "Map": "map", "Gone": "server", "Refused": "server",
    "Server": "server", "Receipt": "vector", "Vector": "vector", "cut": "cut", "dask": "dask",
}

__all__ = ["Error", "File", "FileError", "Gone", "Map", "Receipt", "Refused", "Server", "Status", "Vector", "cut", "dask"]


def __getattr__(name: str) -> Any:
    if name not in _MODULES:
        raise AttributeError(f"module {__name__!r} has no attribute {name!r}")
    module = importlib.import_module(f".{_MODULES[name]}", __name__)
    # A module of this name is an attribute from its import on.
    value = globals()[name] = module if name == _MODULES[name] else getattr(module, name)
    return value


def __dir__() -> list[str]:
    return sorted({*globals(), *__all__})
