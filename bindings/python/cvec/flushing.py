"""Who commits for nobody: again and again, until the vector or the program ends."""
from __future__ import annotations

import math
import queue
import threading
import time
import weakref
from typing import Any

from .handles import Single

# How often a loop looks whether the program ends, in seconds.
_LOOK = 0.2
# The threads that are inside such loops.
_FLUSHING: set[threading.Thread] = set()


def milliseconds(seconds: float) -> int:
    if not seconds >= 0:
        raise ValueError("a timeout is at least 0 seconds")
    return math.ceil(min(seconds * 1000, 2.0 ** 60))


def _program_goes_on() -> bool:
    """Whether its main thread does, or another that is no daemon and doesn't flush."""
    return threading.main_thread().is_alive() or any(
        it.is_alive() and not it.daemon and it not in _FLUSHING for it in threading.enumerate())


class Loop:
    """Commits by an owner's `_flush`, until that answers that nothing more is to come, the owner is given up, or the loop is ended. It
    wakes by no lock that its thread may have, and by no code of Python, which an interrupt could end: who has it is given up within
    any call."""

    def __init__(self, owner: Any, every: float) -> None:
        self._every, self._ends, self._wakes = max(milliseconds(every), 1) / 1000, False, queue.SimpleQueue()
        self._owner = weakref.ref(owner, self._wakes.put)

    def end(self) -> None:
        self._ends = True
        self._wakes.put(None)

    def _rest(self) -> None:
        """So long, and until it is woken. A signal's handler runs meanwhile."""
        end = time.monotonic() + self._every
        while not self._ends and _program_goes_on():
            left = end - time.monotonic()
            if left <= 0:
                return
            try:
                self._wakes.get(timeout=min(left, _LOOK))
                return
            except queue.Empty:
                pass

    def run(self) -> None:
        """It has the owner only while that commits. What is there at the program's end nobody else commits."""
        thread, is_last = threading.current_thread(), False
        try:
            _FLUSHING.add(thread)
            while not self._ends and not is_last:
                is_last, owner = not _program_goes_on(), self._owner()
                if owner is None or not owner._flush():
                    return
                del owner
                self._rest()
        finally:
            _FLUSHING.discard(thread)

    def run_beside(self, faults: list[Exception]) -> None:
        """In a thread of its own, where nobody is that a fault could come to."""
        try:
            self.run()
        except Exception as fault:
            faults.append(fault)


class Flusher(Single):
    """A thread that commits, as `Vector.run_flusher`, from the begin of a `with` block to its end, where it commits once more. Error: a
    commit was refused."""

    def __init__(self, vector: Any, every: float) -> None:
        self._vector, self._loop, self._faults = vector, Loop(self, every), []
        self._thread: threading.Thread | None = None

    def __enter__(self) -> Flusher:
        if self._thread is not None:
            raise ValueError("a flusher begins once")
        self._vector._begin_loop(self._loop)
        self._thread = threading.Thread(target=self._loop.run_beside, args=(self._faults,), name="cvec flusher", daemon=False)
        self._thread.start()
        return self

    def __exit__(self, kind: Any, *_: Any) -> None:
        self._loop.end()
        # In a forked process there is no such thread.
        if self._vector._is_forked():
            return
        self._thread.join()
        try:
            for fault in self._faults:
                raise fault
            self._flush()
        except Exception:
            if kind is None:
                raise

    def _flush(self) -> bool:
        return self._vector._flush()
