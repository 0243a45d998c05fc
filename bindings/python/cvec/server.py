"""A client of `cvec serve`: it starts a server over a file that is there, and grows and reads its vector by pipes.
docs/use/serve.md has the bytes. It isn't proved, and takes no library.

    with Server("numbers.cvec", "u64", seats=4) as server:
        server.seats[0].grow([5, 7, 11])
        server.seats[0].settle()                 # durable when it returns
        print(server.seats[0].read())

A seat belongs to one thread or process at a time. With numpy, records are arrays; without it they are lists, of tuples for
the two types with two fields. One of bytes16, bytes24, bytes32 or bytes64 is a `bytes` of that length, and in an array a V, as
numpy has it. A file says how wide its records are and not of which type: one of u64 is served as i64 too. A server is started
for f32 as for u32, and for f64 as for u64: it keeps their bytes."""
from __future__ import annotations

import errno
import fcntl
import multiprocessing.reduction
import os
import signal
import struct
import subprocess
import threading
import time
from typing import Any

from .errors import Error, Status
from .kinds import Records, Rows, kind_of
from .records import numpy

END, GROW, AWAIT, LOOK, READ = range(5)
# What refusals say, in the order of the server's numbers, from 1 on: as cvec.h has them.
_SENTENCES = (
    "the server knows no such request",
    "the request has a number where none belongs",
    "a request has at least one record",
    "a request has at most 2^20 - 8 bytes of records",
    "a record is none of the server's type, and nothing was grown",
    "the server has no memory for the bytes of the growth",
    "the server has no memory for the growth",
    "the server takes no more growths",
    "the server has taken all growths that it has room for: start it again",
    "the vector would have more than 2^32 records",
    "the growths don't follow one another: the server's memory is damaged",
    "it isn't settled, and the server has ended",
    "it isn't known to be settled: the file refused, restart the system before it is opened again",
)
# Behind so many of them the server reads no more of a seat.
_LAST_END = 6
# The server's words for types that have others there.
_WORDS = {"f32": "u32", "f64": "u64"}
LIMIT = 2 ** 20 - 8
SEAT_LIMIT = 64


class Refused(Error):
    """The server refused a request: `status` says why, from REFUSED_UNKNOWN_KIND on."""


def _refusal(number: int) -> Refused:
    text = _SENTENCES[number - 1] if number <= len(_SENTENCES) else f"the server answered {number}"
    return Refused(Status.GONE + number, text)


class Gone(Error):
    """The server has ended, or reads no more of this seat: which, and what that means for growths that weren't settled.
    `exit_status` is the server's, -N where the signal N ended it, None where that isn't known here."""

    def __init__(self, what: str, exit_status: int | None = None) -> None:
        super().__init__(Status.GONE, what)
        self.exit_status = exit_status

    def __reduce__(self) -> Any:
        return type(self), (self.args[0], self.exit_status)


def _end_of(status: int | None) -> tuple[str, int | None]:
    """What a Gone says of a server that ended so."""
    if status is None:
        end = "has ended, or reads no more of this seat"
    elif status >= 0:
        end = f"ended with status {status}"
    else:
        end = f"was ended by signal {-status} ({signal.strsignal(-status)})"
    return f"the server {end}: each growth that isn't settled stands in the file whole, or not at all", status


def _close(descriptors: Any) -> None:
    for descriptor in descriptors:
        os.close(descriptor)


def _above_streams(descriptors: list[int]) -> list[int]:
    """These, but others for those with the number of a standard stream: where one is closed a pipe gets its number, at which the
    server would have another file. Refused, all of them are as they were."""
    moved = {}
    try:
        for descriptor in descriptors:
            if descriptor <= 2:
                moved[descriptor] = fcntl.fcntl(descriptor, fcntl.F_DUPFD_CLOEXEC, 3)
    except BaseException:
        _close(moved.values())
        raise
    _close(moved)
    return [moved.get(it, it) for it in descriptors]


class Seat:
    """One client's place: the client's ends of its two pipes. What is pickled for another process has copies of these: so the two are
    one place, which one of them uses at a time, and the one that is dropped closes its own."""

    def __init__(self, requests: int, answers: int, form: Records | Rows, server: Server | None = None) -> None:
        self.requests: int | None = requests
        self.answers: int | None = answers
        self.form, self.server = form, server
        self.over: tuple[Any, ...] | None = None  # or why it is over, as Gone says it

    def __reduce__(self) -> Any:
        if self.requests is None or self.answers is None:
            raise ValueError("the seat has ended here")
        ends = map(multiprocessing.reduction.DupFd, (self.requests, self.answers))
        return _seat_of, (*ends, self.form.name if isinstance(self.form, Records) else None, self.form.dtype, self.over)

    def __del__(self) -> None:
        """Of what another process has made. The seats of a server end with that."""
        if self.server is None:
            self.close()

    def _gone(self) -> Gone:
        """The pipes are shut, so the server has ended, or will in a moment."""
        self.over = _end_of(self.server and self.server.status_soon())
        return Gone(*self.over)

    def _write(self, data: bytes) -> None:
        view = memoryview(data)
        try:
            while view:
                view = view[os.write(self.requests, view):]
        except BrokenPipeError:
            raise self._gone() from None

    def _take(self, count: int) -> bytes:
        parts = []
        while count:
            part = os.read(self.answers, count)
            if not part:
                raise self._gone()
            parts.append(part)
            count -= len(part)
        return b"".join(parts)

    def _ask(self, kind: int, count: int = 0, start: int = 0, data: bytes = b"") -> tuple[int, int, bytes]:
        """The numbers of the answer, and the bytes of its records."""
        if self.over:
            raise Gone(*self.over)
        try:
            head = struct.pack("<IIQ", kind, count, start)
        except struct.error as fault:
            raise ValueError(f"no position or count: {fault}") from None
        # Whatever ends this before the whole answer is read, as a signal's handler may, leaves the next one to no request.
        self.over = ("a request of this seat wasn't answered whole: it may have been done, or not",)
        self._write(head + data)
        status, count, first, second = struct.unpack("<IIQQ", self._take(24))
        records = self._take(count * self.form.width_in_file)
        self.over = (f"the server reads no more of this seat, since it refused a request ({_SENTENCES[status - 1]}): what was grown "
                     "before is settled where the server ends with status 0",) if 1 <= status <= _LAST_END else None
        if status:
            raise _refusal(status)
        return first, second, records

    def _check(self, words: int) -> int:
        """What a request may have, of so many of the file's records."""
        if words == 0:
            raise _refusal(3)
        if words > LIMIT // self.form.width_in_file:
            raise _refusal(4)
        return words

    def grow(self, records: Any) -> tuple[int, int]:
        """Publishes the records as one growth: how many growths of this server stand before it, and where it begins.
        ValueError: not all are records of the type, and nothing was asked."""
        data = self.form.pack(records)
        number, start, _ = self._ask(GROW, self._check(len(data) // self.form.width_in_file), 0, data)
        return number, start // self.form.words

    def settle(self) -> int:
        """Waits until all that this seat grew is durable: so many growths of the server are."""
        return self._ask(AWAIT)[0]

    def look(self) -> tuple[int, int]:
        """How many records the vector has, with those of other seats, and how many growths of the server are durable."""
        size, settled, _ = self._ask(LOOK)
        return size // self.form.words, settled

    def piece(self, start: int, count: int | None = None) -> Any:
        """Records from a position on, as far as they stand in one piece. None: the seat knows none there."""
        words, width = self.form.words, self.form.width_in_file
        most = LIMIT // width // words * words if count is None else self._check(count * words)
        data = self._ask(READ, most, start * words)[2]
        # A row may lie in two growths.
        while (there := len(data) // width) % words:
            rest = self._ask(READ, words - there % words, start * words + there)[2]
            if not rest:
                return self.form.unpack(data[:there // words * words * width])
            data += rest
        return self.form.unpack(data)

    def read(self, start: int = 0) -> Any:
        """All records from a position on, as far as they stand now."""
        size, pieces = self.look()[0], []
        while start < size:
            pieces.append(self.piece(start))
            start += len(pieces[-1])
        if numpy:
            return numpy.concatenate(pieces) if pieces else numpy.empty(0, dtype=self.form.dtype_in_file)
        return [record for piece in pieces for record in piece]

    def close(self) -> None:
        """Closes the pipes, of which the server then sees the end."""
        self.over = self.over or ("the seat has ended here",)
        # No interrupt comes between what takes one away and its own close: behind one, another call closes what is left.
        requests, self.requests = self.requests, None
        if requests is not None:
            os.close(requests)
        answers, self.answers = self.answers, None
        if answers is not None:
            os.close(answers)

    def end(self) -> None:
        """Asks for the end, unless the seat is over, and closes the pipes."""
        try:
            if self.requests is not None and not self.over:
                self._ask(END)
        finally:
            self.close()


def _seat_of(requests: Any, answers: Any, name: str | None, dtype: Any, over: Any) -> Seat:
    """In another process: the copies that it has got."""
    seat = Seat(requests.detach(), answers.detach(), kind_of("u64" if name is None else name, dtype if name is None else None))
    seat.over = over
    return seat


def _prepare(descriptors: list[int]) -> None:
    """In the child: gives them the places from 3 on, by way of others above all of these, so that none is overwritten. A
    client that is gone is to end its seat, and no signal the server. Those that are sent to itself reach it, also where the thread
    that starts it has blocked them."""
    signal.signal(signal.SIGPIPE, signal.SIG_IGN)
    signal.pthread_sigmask(signal.SIG_SETMASK, [])
    high = [fcntl.fcntl(it, fcntl.F_DUPFD_CLOEXEC, 3 + len(descriptors)) for it in descriptors]
    for at, descriptor in enumerate(high):
        os.dup2(descriptor, 3 + at)


class Server:
    """A server over a file that is there, and its seats. Its standard output goes to /dev/null. It has a session of its own, so a
    terminal's Ctrl-C reaches the client alone; it ends when its seats have ended, or their clients. The type of the records is passed as
    to a `File`. `program`: a path, or a name that is looked for in PATH."""

    def __init__(self, path: Any, type: str = "u64", *, dtype: Any = None, seats: int = 1, program: Any = "cvec") -> None:
        form = kind_of(type, dtype)
        if not 1 <= seats <= SEAT_LIMIT:
            raise ValueError(f"a server has 1 to {SEAT_LIMIT} seats, not {seats}")
        words = [program, "serve", _WORDS.get(form.word, form.word), os.fspath(path), f"--seats={seats}"]
        self._starter, self._waiting = os.getpid(), threading.RLock()
        ours: list[int] = []
        theirs: list[int] = []
        try:
            for _ in range(seats):
                for mine in (1, 0):
                    ends = os.pipe()
                    ours.append(ends[mine])
                    theirs.append(ends[1 - mine])
            for held in (ours, theirs):
                held[:] = _above_streams(held)
            self.process = subprocess.Popen(words, preexec_fn=lambda: _prepare(theirs), close_fds=False,
                                            start_new_session=True, stdin=subprocess.DEVNULL, stdout=subprocess.DEVNULL)
        except BaseException:
            _close(ours)
            raise
        finally:
            _close(theirs)
        self.seats = [Seat(requests, answers, form, self) for requests, answers in zip(ours[::2], ours[1::2])]

    def wait(self) -> int:
        """Waits until the server has ended, which it does behind its last seat: its exit status, 0 where all that was grown
        is durable, or -N where the signal N ended it. ChildProcessError: that isn't known here, as in a forked process."""
        if os.getpid() != self._starter:
            raise ChildProcessError(errno.ECHILD, "another process has started the server")
        with self._waiting:
            # Popen takes a process that can't be waited for, where SIGCHLD is ignored, for one that ended with 0.
            if self.process.returncode is None:
                os.waitid(os.P_PID, self.process.pid, os.WEXITED | os.WNOWAIT)
            return self.process.wait()

    def status_soon(self) -> int | None:
        """As `wait`, but None where it goes on for a second more, or that isn't known here."""
        try:
            for _ in range(100):
                if os.waitid(os.P_PID, self.process.pid, os.WEXITED | os.WNOWAIT | os.WNOHANG):
                    return self.wait()
                time.sleep(0.01)
        except ChildProcessError:
            pass
        return self.process.returncode

    def _end_seats(self) -> None:
        for seat in self.seats:
            try:
                seat.end()
            except (Gone, Refused):
                pass

    def __enter__(self) -> Server:
        return self

    def __exit__(self, fault: Any, *_: Any) -> None:
        try:
            self._end_seats()
        except BaseException:
            # As Ctrl-C: no answer is waited for any more, and the server sees the end of each.
            for seat in self.seats:
                seat.close()
            raise
        status = self.wait()
        if status != 0 and fault is None:
            raise Gone(*_end_of(status))
