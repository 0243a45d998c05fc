"""Many vectors on many machines, computed over where they stand, by Dask distributed. Each machine has a worker; the writers go on.

    client = Client("tls://head:8786", security=security)
    trades = cvec.dask.find(client, "/srv/trades/*.cv", "u64", ["10.0.0.1", "10.0.0.2"])
    print(len(trades), trades.count(50), trades.top(10))          # of a cut of each file, which this call of `find` took
    trades.refresh()                                               # and one of now

What is computed runs on the machine that has the file, and answers alone come back. Each file is as it was at one moment (cvec.cut),
and no moment is common to two files. docs/use/many.md says what is exact, how it is set up, and what the caller sees of each fault.
Nothing here is proved."""
from __future__ import annotations

import asyncio
import concurrent.futures
import functools
import glob
import hashlib
import os
import platform
import socket
import threading
import time
import uuid
from typing import Any, Callable, Iterable, Iterator, NamedTuple

try:
    import dask
    import distributed
    import numpy
    from dask.array import Array
    from dask.highlevelgraph import HighLevelGraph, MaterializedLayer
    from distributed.comm.addressing import get_address_host
    from distributed.protocol.pickle import dumps, loads
except ImportError as fault:
    raise ImportError("cvec.dask takes Dask distributed and numpy, which are Debian's package python3-distributed") from fault

from . import cut as cuts
from .cut import Cut, Moved, Replaced
from .frames import Fault

# So many bytes of a file are one task.
CHUNK_BYTES = 64 << 20
# A file that is changed or replaced while it is read is read anew so many times.
TRIES = 8
# The seconds between two looks at who is still there.
STEP = 0.5
# So many answers of blocks are joined at a time, so that a task doesn't hold one of each block.
ANSWERS = 16


class Missing(Exception):
    """A file has no cut, or a machine has no worker that is heard of."""


class Lost(Exception):
    """The scheduler is gone, or isn't heard of. Make a new client."""


class WrongMachine(Exception):
    """A task was given to another machine than the one that has the file. Dask's fusion forgets where a task belongs: `Shards.compute`
    does without."""


class WrongVersion(Exception):
    """A worker has another Python, Dask, numpy or `cvec` than the client, or lacks one."""


class _Unreadable(Exception):
    """The file of a task can't be read, which is no fault of the caller's function."""


class Name(NamedTuple):
    """A file: `HOST:PATH`, where an address of IPv6 stands in brackets."""

    host: str
    path: str

    def __str__(self) -> str:
        return f"[{self.host}]:{self.path}" if ":" in self.host else f"{self.host}:{self.path}"

    @classmethod
    def of(cls, text: str) -> Name:
        """ValueError: it isn't HOST:PATH."""
        host, _, path = text[1:].partition("]:") if text.startswith("[") else text.partition(":")
        if not host or not path:
            raise ValueError(f"a name is HOST:PATH, and {text} isn't")
        return cls(host, path)


# ---- what runs on the machines

def _versions() -> dict[str, str]:
    """What client and workers have to have alike."""
    digest = hashlib.blake2b(digest_size=6)
    for module in ("cut", "dask", "frames", "kinds", "records"):
        with open(os.path.join(os.path.dirname(os.path.abspath(__file__)), f"{module}.py"), "rb") as file:
            digest.update(file.read())
    return {"Python": ".".join(platform.python_version_tuple()[:2]), "dask": dask.__version__, "distributed": distributed.__version__,
            "numpy": numpy.__version__, "cvec": digest.hexdigest()}


_VERSIONS = _versions()


def _greet(pattern: str | None) -> tuple[dict[str, str], list[str]]:
    """The versions here, and the files of the pattern."""
    paths = sorted(glob.glob(pattern, recursive=True)) if pattern is not None else []
    return _VERSIONS, [it for it in paths if os.path.isfile(it)]


def _check_machine(machines: Iterable[str]) -> None:
    here = get_address_host(distributed.get_worker().address)
    if here not in machines:
        raise WrongMachine(f"{here} was asked for what {' or '.join(machines)} has")


def _cut(machines: Iterable[str], path: str, kind: Any, before: Cut | None, sync: bool) -> Any:
    """A cut of now, without the marks that the client has; or why there is none."""
    _check_machine(machines)
    try:
        if before is not None:
            try:
                return cuts.refreshed(before, sync)
            except Replaced:
                pass
        return cuts.take(path, kind, sync)
    except (Fault, OSError) as fault:
        return fault


def _blocks(cut: Cut, start: int, stop: int) -> Iterator[tuple[int, Any]]:
    try:
        yield from cuts.blocks(cut, start, stop)
    except (Fault, OSError) as fault:
        raise _Unreadable(fault) from fault


def _reduced(machines: Iterable[str], cut: Cut, start: int, stop: int, each: Any, join: Any) -> bytes:
    """The joined answers of these records, as they go to another process. What can't go is the fault of this task."""
    _check_machine(machines)
    answers: list[Any] = []
    for first, block in _blocks(cut, start, stop):
        answers.append(each(block, first))
        if len(answers) == ANSWERS:
            answers = [join(answers)]
    return dumps(join(answers))


def _joined(join: Any, parts: list[bytes]) -> bytes:
    return dumps(join([loads(it) for it in parts]))


def _read(machines: Iterable[str], cut: Cut, start: int, stop: int) -> Any:
    _check_machine(machines)
    return cuts.read(cut, start, stop)


# ---- what is computed of a block, and of some answers

def _matches(kind: Any, record: Any) -> Callable[[Any], Any]:
    """The places in a block of a record of the kind, or of those of which a function is true."""
    if callable(record):
        return functools.partial(_true_places, record)
    return functools.partial(_equal_places, cuts.packed(kind, record))


def _true_places(is_one: Any, block: Any) -> Any:
    return numpy.flatnonzero(is_one(block))


def _equal_places(data: bytes, block: Any) -> Any:
    return cuts.places_of(block, data)


def _count_each(places: Any, block: Any, first: int) -> int:
    return len(places(block))


def _find_each(places: Any, block: Any, first: int) -> int | None:
    found = places(block)
    return first + int(found[0]) if len(found) else None


def _first_of(found: list[int | None]) -> int | None:
    return min((it for it in found if it is not None), default=None)


def _histogram_each(bins: int, limits: Any, of: Any, block: Any, first: int) -> Any:
    return numpy.histogram(of(block) if of else block, bins, limits)[0]


def _greatest(count: int, row: Any) -> Any:
    """In falling order."""
    return numpy.sort(numpy.partition(row, len(row) - count)[-count:] if len(row) > count else row)[::-1].copy()


def _top_each(count: int, of: Any, block: Any, first: int) -> Any:
    return _greatest(count, of(block) if of else block)


def _top_join(count: int, parts: list[Any]) -> Any:
    return _greatest(count, numpy.concatenate(parts))


# ---- machines, and tasks that stay on theirs

class _Job(NamedTuple):
    """What is computed of one file: calls on the machine that has it, and what joins their answers there."""

    host: str
    calls: list[tuple[Any, ...]]
    """Each takes the machine's addresses in front of these words, but a call of `_greet`."""
    join: Any = None


@functools.lru_cache(maxsize=1024)
def _addresses_of(host: str) -> tuple[str, ...]:
    """What the client's system says of a name. It is asked once."""
    try:
        return tuple(dict.fromkeys(it[4][0] for it in socket.getaddrinfo(host, None, type=socket.SOCK_STREAM)))
    except OSError:
        return ()


class _Watch:
    """When each machine was last heard of, from now on. A worker that is cut off or stopped is still listed, but its last sign of life
    stays the same."""

    def __init__(self, machines: _Machines, hosts: Iterable[str]) -> None:
        now = time.monotonic()
        self.machines, self.seen, self.heard, self.looked = machines, {}, dict.fromkeys(hosts, now), now

    def silent(self) -> set[str]:
        """The hosts that weren't heard of for too long. Lost: the scheduler itself."""
        now = time.monotonic()
        if now - self.looked >= STEP:
            listed = self.machines.listed()
            new = {get_address_host(it) for it, sign in listed.items() if self.seen.get(it) != sign}
            self.seen, self.looked = listed, now
            for host in self.heard:
                if new.intersection(self.machines.of(host, listed)):
                    self.heard[host] = now
        return {host for host, heard in self.heard.items() if now - heard > self.machines.patience}


class _Machines:
    """The machines that a client's workers run on."""

    def __init__(self, client: Any, patience: float) -> None:
        self.client, self.patience = client, patience

    def listed(self) -> dict[str, float]:
        """The workers that the scheduler lists, each with its last sign of life."""
        if self.client.status != "running":
            raise Lost(f"the client is {self.client.status}")
        try:
            known = self.client.sync(self.client.scheduler.identity, callback_timeout=self.patience)
        except (OSError, asyncio.TimeoutError, concurrent.futures.TimeoutError) as fault:
            raise Lost(f"the scheduler doesn't answer: {fault!r}") from fault
        return {address: it["last_seen"] for address, it in known["workers"].items()}

    def of(self, host: str, listed: Iterable[str]) -> list[str]:
        """The addresses by which this host's workers are known: its own word, or what that is resolved to."""
        known = {host, *_addresses_of(host)}
        there = sorted({get_address_host(it) for it in listed} & known)
        return there or list(_addresses_of(host)) or [host]

    def run(self, jobs: dict[Any, _Job]) -> tuple[dict[Any, Any], dict[Any, Exception]]:
        """What each job answers, or why it doesn't. Each wait ends: Lost, or a `Missing` among the faults."""
        if not jobs:
            return {}, {}
        futures = self._submit(jobs)
        watch = _Watch(self, {it.host for it in jobs.values()})
        gone = self._await(futures, jobs, watch)
        done = {name: it for name, it in futures.items() if name not in gone}
        faults = {name: it.exception(timeout=self.patience) for name, it in done.items() if it.status == "error"}
        values = self._values({name: it for name, it in done.items() if name not in faults}, jobs, watch, gone)
        return values, {**faults, **{name: self.missing(jobs[name].host) for name in gone}}

    def answer(self, future: Any, hosts: Iterable[str]) -> Any:
        """Of a task that may need any of these hosts. Missing: one of them isn't heard of."""
        watch, bell = _Watch(self, hosts), threading.Event()
        future.add_done_callback(lambda _: bell.set())
        while not bell.wait(STEP):
            for host in sorted(watch.silent()):
                raise self.missing(host)
        if future.status == "cancelled":
            raise Lost("the scheduler has forgotten what it was asked")
        try:
            return future.result(timeout=self.patience)
        except (asyncio.TimeoutError, concurrent.futures.TimeoutError) as fault:
            raise Missing(f"no answer came for {self.patience} s") from fault

    def missing(self, host: str) -> Missing:
        return Missing(f"{host}: no worker was heard of for {self.patience} s")

    def _submit(self, jobs: dict[Any, _Job]) -> dict[Any, Any]:
        """All go as one graph: a task that is submitted alone takes some milliseconds."""
        listed, label = self.listed(), f"cvec-{uuid.uuid4().hex}"
        places: dict[str, list[str]] = {}
        tasks: dict[str, Any] = {}
        wanted = {}
        for number, (name, job) in enumerate(jobs.items()):
            machines = self.of(job.host, listed)
            keys = [f"{label}-{number}-{part}" for part in range(len(job.calls))]
            for key, (call, *words) in zip(keys, job.calls):
                tasks[key] = (call, *words) if call is _greet else (call, machines, *words)
            wanted[name] = keys[0]
            if job.join is not None:
                wanted[name] = f"{label}-{number}-join"
                tasks[wanted[name]] = (_joined, job.join, keys)
            places.update(dict.fromkeys([*keys, wanted[name]], machines))
        layer = MaterializedLayer(tasks, annotations={"workers": places.__getitem__})
        found = self.client.get(HighLevelGraph({label: layer}, {label: set()}), list(wanted.values()), sync=False)
        return dict(zip(wanted, found))

    def _await(self, futures: dict[Any, Any], jobs: dict[Any, _Job], watch: _Watch) -> set[Any]:
        """Waits until each of these is done. The names of those whose machine isn't heard of."""
        gone: set[Any] = set()
        waiting, bell = dict(futures), threading.Semaphore(0)
        for future in set(futures.values()):
            future.add_done_callback(lambda _: bell.release())
        while waiting:
            bell.acquire(timeout=STEP)
            waiting = {name: it for name, it in waiting.items() if not it.done()}
            silent = watch.silent() if waiting else set()
            gone.update(name for name in waiting if jobs[name].host in silent)
            waiting = {name: it for name, it in waiting.items() if name not in gone}
        if any(it.status == "cancelled" for name, it in futures.items() if name not in gone):
            raise Lost("the scheduler has forgotten what it was asked")
        return gone

    def _values(self, futures: dict[Any, Any], jobs: dict[Any, _Job], watch: _Watch, gone: set[Any]) -> dict[Any, Any]:
        """What these have answered. A machine may go while answers are fetched: then its names are gone, and the others are asked
        again."""
        while futures:
            asked = asyncio.run_coroutine_threadsafe(_gathered(self.client, futures), self.client.loop.asyncio_loop)
            silent: set[str] = set()
            while not silent:
                try:
                    return asked.result(timeout=STEP)
                except concurrent.futures.TimeoutError:
                    silent = watch.silent() & {jobs[name].host for name in futures}
                except (asyncio.CancelledError, concurrent.futures.CancelledError) as fault:
                    raise Lost("the scheduler has forgotten what it was asked") from fault
            asked.cancel()
            gone.update(name for name in futures if jobs[name].host in silent)
            futures = {name: it for name, it in futures.items() if name not in gone}
        return {}


async def _gathered(client: Any, futures: dict[Any, Any]) -> dict[Any, Any]:
    return dict(zip(futures, await client.gather(list(futures.values()), asynchronous=True)))


# ---- the shards

def find(client: Any, pattern: str, kind: Any, hosts: Iterable[str], **options: Any) -> Shards:
    """The files of this pattern on each of these hosts, each named by an address or a host's name. `refresh` adds those that are new.
    Missing: a host has no worker, or nothing matches on any. WrongVersion: a worker isn't as the client."""
    shards = Shards(client, kind, pattern=pattern, hosts=hosts, **options)
    shards.refresh()
    if not shards.names:
        raise Missing(f"nothing matches {pattern} on {', '.join(shards.hosts)}")
    return shards


def from_files(client: Any, names: Iterable[str], kind: Any, **options: Any) -> Shards:
    """These files, each as HOST:PATH. Missing, WrongVersion: as of `find`; ValueError: a name is none."""
    shards = Shards(client, kind, **options)
    return shards.add(names)


class Shards:
    """One vector after another, in the order of `names`; each is of a cut. Options:

    `chunk`     how many records one task reads, 64 MiB of them without it
    `missing`   "raise": a file that has no cut ends a call as `Missing`; "skip": it is in no answer, and named in `faults`
    `patience`  for so many seconds a machine, or the scheduler, may be silent
    `sync`      without it the last frame of a cut needn't be on the device"""

    def __init__(self, client: Any, kind: Any, pattern: str | None = None, hosts: Iterable[str] = (), chunk: int | None = None,
                 missing: str = "raise", patience: float = 30, sync: bool = True) -> None:
        if missing not in ("raise", "skip"):
            raise ValueError(f"missing is 'raise' or 'skip', not {missing!r}")
        self.client, self.dtype = client, cuts.dtype_of(kind)
        self.kind = kind if isinstance(kind, str) else self.dtype
        self.pattern, self.hosts, self.names = pattern, list(dict.fromkeys(hosts)), []
        self.chunk = chunk or max(1, CHUNK_BYTES // self.dtype.itemsize)
        self.on_missing, self.sync = missing, sync
        self.cuts: dict[Name, Cut] = {}
        """What all answers are of."""
        self.faults: dict[Name, Exception] = {}
        """Why a file has no cut."""
        self.missing: set[str] = set()
        """The hosts that weren't heard of when they were last asked."""
        self.reread: set[Name] = set()
        """The files that were changed or replaced in the last call, and read anew: of a later moment than the others."""
        self._machines = _Machines(client, patience)
        self._known: dict[Name, Cut] = {}
        self._greeted: set[str] = set()
        self._dropped: set[Name] = set()
        # Of each array that was made the hosts of its chunks.
        self._arrays: dict[str, set[str]] = {}

    # ---- which files there are

    def add(self, names: Iterable[str]) -> Shards:
        """These files too, with cuts of now."""
        new = [it for it in dict.fromkeys(map(Name.of, names)) if it not in self.names]
        self._dropped.difference_update(new)
        self._take(new)
        self.names += new
        self._check()
        return self

    def drop(self, names: Iterable[str]) -> Shards:
        """Without these files, which no answer has any more, until they are added."""
        left = {Name.of(str(it)) for it in names}
        self.names = [it for it in self.names if it not in left]
        self._dropped |= left
        for name in left:
            for kept in (self.cuts, self.faults, self._known):
                kept.pop(name, None)
        return self

    def refresh(self, names: Iterable[Name] | None = None) -> Shards:
        """Cuts of now, of these files or of all, and of those that are new. Missing: as `missing` has it."""
        self._take(list(self.names) if names is None else list(names), is_whole=names is None)
        self._check()
        return self

    def _take(self, names: list[Name], is_whole: bool = False) -> None:
        """Takes the cuts of these names, and where all are taken asks each host for new ones."""
        pattern = self.pattern if is_whole else None
        asked = set(self.hosts) if pattern is not None else {it.host for it in names} - self._greeted
        jobs: dict[Any, _Job] = {host: _Job(host, [(_greet, pattern)]) for host in asked}
        jobs.update((name, self._cut_job(name)) for name in names)
        values, faults = self._machines.run(jobs)
        self.missing = (self.missing - {it.host for it in jobs.values()}) | {it.host for name, it in jobs.items()
                                                                           if isinstance(faults.get(name), Missing)}
        new = self._greetings({host: values.pop(host, None) or faults.pop(host) for host in asked})
        self._keep(names, values, faults)
        if new:
            self.names += new
            self._take(new)

    def _cut_job(self, name: Name) -> _Job:
        before = self._known.get(name)
        return _Job(name.host, [(_cut, name.path, self.kind, None if before is None else before.bare(), self.sync)])

    def _greetings(self, told: dict[str, Any]) -> list[Name]:
        """The names that are new. What a host said is its versions and its files, or why it says nothing."""
        new = []
        for host in sorted(told, key=self.hosts.index) if self.pattern is not None and self.hosts else told:
            if isinstance(told[host], Missing):
                continue
            if isinstance(told[host], Exception):
                raise WrongVersion(f"{host}: {told[host]}") from told[host]
            versions, paths = told[host]
            for what, there in versions.items():
                if _VERSIONS.get(what) != there:
                    raise WrongVersion(f"{host} has {what} {there}, and the client {_VERSIONS.get(what)}")
            self._greeted.add(host)
            new += [it for it in (Name(host, path) for path in paths) if it not in self.names and it not in self._dropped]
        return new

    def _keep(self, names: list[Name], values: dict[Any, Any], faults: dict[Any, Exception]) -> None:
        """What these names have answered: a cut, or why there is none."""
        for name in names:
            found = values.get(name, faults.get(name))
            if isinstance(found, (Missing, Fault, OSError)):
                self.faults[name] = found
                self.cuts.pop(name, None)
                continue
            if isinstance(found, Exception):
                raise found
            before = self._known.get(name)
            if before is not None and before.lineage == found.lineage:
                found = found.with_marks_of(before)
            self.cuts[name] = self._known[name] = found
            self.faults.pop(name, None)

    def _check(self) -> None:
        """No answer lacks a file in silence."""
        if self.on_missing == "skip":
            return
        for name, fault in self.faults.items():
            raise fault if isinstance(fault, Missing) else Missing(f"{name}: {fault}") from fault
        for host in sorted(self.missing):
            raise self._machines.missing(host)

    def __len__(self) -> int:
        """How many records there are, of all cuts."""
        return sum(map(len, self.cuts.values()))

    def table(self) -> list[tuple[str, int, int, int, int]]:
        """Of each cut the name, the records, the gate, the frames and the live changes."""
        return [(str(it), len(self.cuts[it]), self.cuts[it].gate, self.cuts[it].frames, len(self.cuts[it].live))
                for it in self.names if it in self.cuts]

    # ---- computing

    def reduce(self, each: Any, join: Any) -> Any:
        """`join` of what `each(block, first)` answers of all blocks: `block` an array of records, of which the first stands at position
        `first` of its file. `join` takes a list of answers, or of what it answered itself, in the order of positions; where there is no
        record, an empty one. A block is written over behind the call. `each` may run twice, so it changes nothing outside.
        Missing; Moved: a file was changed in each of 8 tries; Fault; Lost; what `each` or `join` raises."""
        parts = self.reduce_each(each, join)
        return join([parts[name] for name in self.names if name in parts])

    def reduce_each(self, each: Any, join: Any, starts: dict[Name, int] | None = None) -> dict[Name, Any]:
        """The same of each file that has records: a dict by names. `starts`: from which position on."""
        self._check()
        parts: dict[Name, Any] = {}
        self.reread, left, starts = set(), [it for it in self.names if it in self.cuts], dict(starts or {})
        for _ in range(1 + TRIES):
            again = self._try(left, each, join, starts, parts)
            self._check()
            if not again:
                return {name: it for name, it in parts.items() if name in self.cuts}
            self.reread.update(again)
            self.refresh(again)
            starts.update(dict.fromkeys(again, 0))
            left = [it for it in again if it in self.cuts]
        raise Moved(f"changed at each of {TRIES} tries: {', '.join(map(str, left))}")

    def _try(self, names: list[Name], each: Any, join: Any, starts: dict[Name, int], parts: dict[Name, Any]) -> list[Name]:
        """Puts the answers of these files to the others. Those that were changed or replaced meanwhile."""
        jobs = {it: job for it in names if (job := self._reduce_job(it, each, join, starts.get(it, 0))).calls}
        values, faults = self._machines.run(jobs)
        self.missing |= {it.host for it, fault in faults.items() if isinstance(fault, Missing)}
        parts.update((name, loads(it)) for name, it in values.items())
        again = []
        for name, fault in faults.items():
            if isinstance(fault, (Moved, Replaced)):
                again.append(name)
            elif isinstance(fault, (Missing, _Unreadable)):
                self.faults[name] = fault.args[0] if isinstance(fault, _Unreadable) else fault
                self.cuts.pop(name, None)
            else:
                raise fault
        return again

    def _reduce_job(self, name: Name, each: Any, join: Any, start: int) -> _Job:
        calls = [(_reduced, part, first, last, each, join) for part, first, last in self._pieces(name, start, self.chunk)]
        return _Job(name.host, calls, join if len(calls) > 1 else None)

    def _pieces(self, name: Name, start: int, chunk: int) -> Iterator[tuple[Cut, int, int]]:
        cut = self.cuts[name]
        for first in range(start, len(cut), chunk):
            last = min(first + chunk, len(cut))
            yield cut.part(first, last), first, last

    def count(self, record: Any) -> int:
        """How many are this record, by its bits as `cvec count` compares, or of how many a function of a block is true. ValueError: the
        type has no such record."""
        return self.reduce(functools.partial(_count_each, _matches(self.kind, record)), sum)

    def find(self, record: Any) -> tuple[Name, int] | None:
        """The first of these: its file, and the position there. ValueError: as of `count`."""
        parts = self.reduce_each(functools.partial(_find_each, _matches(self.kind, record)), _first_of)
        return next(((name, parts[name]) for name in self.names if parts.get(name) is not None), None)

    def histogram(self, bins: int, range: tuple[float, float], of: Any = None) -> tuple[Any, Any]:
        """As `numpy.histogram`, of the records, or of what a function makes of a block: counts and edges."""
        counts = self.reduce(functools.partial(_histogram_each, bins, range, of), functools.partial(sum, start=numpy.zeros(bins, "i8")))
        return counts, numpy.histogram_bin_edges(numpy.empty(0), bins, range)

    def top(self, count: int, of: Any = None) -> Any:
        """The greatest, in falling order, of the records or of what a function makes of a block. To numpy a NaN is greater than any."""
        parts = self.reduce_each(functools.partial(_top_each, count, of), functools.partial(_top_join, count))
        found = [parts[name] for name in self.names if name in parts]
        return _top_join(count, found) if found else numpy.empty(0, self.dtype if of is None else None)

    def standing(self, each: Any, join: Any) -> Standing:
        """What `reduce` answers, again and again, for which records are read once."""
        return Standing(self, each, join)

    # ---- as an array of Dask's

    def array(self, chunk: int | None = None) -> Array:
        """The cuts, one behind the other, as a lazy `dask.array`. Its chunks are pieces of files, read as copies when they are wanted.
        `compute` computes what is made of it, and leaves each chunk on its machine. Missing."""
        self._check()
        listed, label = self._machines.listed(), f"cvec-{uuid.uuid4().hex}"
        tasks: dict[Any, Any] = {}
        sizes, places = [], {}
        for name in (it for it in self.names if it in self.cuts):
            machines = self._machines.of(name.host, listed)
            for part, first, last in self._pieces(name, 0, chunk or self.chunk):
                key = (label, len(sizes))
                tasks[key] = (_read, machines, part, first, last)
                places[key] = places[str(key)] = machines
                sizes.append(last - first)
        if not sizes:
            return dask.array.from_array(numpy.empty(0, self.dtype))
        self._arrays[label] = {it.host for it in self.cuts}
        layer = MaterializedLayer(tasks, annotations={"workers": places.__getitem__, "allow_other_workers": False})
        return Array(HighLevelGraph({label: layer}, {label: set()}), label, (tuple(sizes),), dtype=self.dtype)

    def compute(self, value: Any) -> Any:
        """What something made of `array` comes to. Dask's fusion of tasks, which loses where they belong, is off meanwhile. Moved,
        Replaced: a file was changed since its cut, so take a new array; Missing; Lost."""
        with dask.config.set({"optimization.fuse.active": False}):
            future = self.client.compute(value)
        layers = getattr(value.__dask_graph__(), "layers", self._arrays)
        return self._machines.answer(future, set().union(*(hosts for label, hosts in self._arrays.items() if label in layers)))


class _Part(NamedTuple):
    """What a file has come to: while `mark` stays, so do the records that were read, `size` of them."""

    mark: tuple[str, int, int]
    size: int
    answer: Any


class Standing:
    """An answer that is kept. `read` is how many records were read for it so far."""

    def __init__(self, shards: Shards, each: Any, join: Any) -> None:
        self.shards, self.each, self.join = shards, each, join
        self.read = 0
        self._parts: dict[Name, _Part] = {}

    def value(self) -> Any:
        """Of the vectors as they are now. Records that came since are read alone; a file that was changed, shortened or replaced is read
        from its beginning. Missing, Moved, Fault, Lost: as of `reduce`."""
        shards = self.shards.refresh()
        for name, cut in shards.cuts.items():
            if name in self._parts and self._parts[name].mark != _mark_of(cut):
                del self._parts[name]
        starts = {name: it.size for name, it in self._parts.items()}
        new = shards.reduce_each(self.each, self.join, starts)
        for name in shards.reread:
            self._parts.pop(name, None)
        for name, answer in new.items():
            self._put(name, answer, self._parts[name].size if name in self._parts else 0)
        return self.join([self._parts[name].answer for name in shards.names if name in shards.cuts and name in self._parts])

    def _put(self, name: Name, answer: Any, start: int) -> None:
        """The answer of the records from this position on."""
        cut = self.shards.cuts[name]
        if start > 0:
            answer = self.join([self._parts[name].answer, answer])
        self._parts[name] = _Part(_mark_of(cut), len(cut), answer)
        self.read += len(cut) - start


def _mark_of(cut: Cut) -> tuple[str, int, int]:
    return cut.lineage, cut.changes, cut.shrinks
