"""The turns of the calls on one store: one call at a time, of whatever threads."""
import contextlib
import os
import threading
import weakref
from typing import Iterator


class Turns:
    """Lets one call through at a time. A call within a call of the same thread, such as a finalizer or a handler of signals may
    make, raises RuntimeError: it would wait for itself."""

    def __init__(self) -> None:
        """Nobody's turn."""
        self._lock = threading.RLock()
        self._is_taken = False
        _all.add(self)

    @contextlib.contextmanager
    def taken(self) -> Iterator[None]:
        """Waits for the turn and has it until the end of the block."""
        with self._lock:
            if self._is_taken:
                raise RuntimeError("this thread is within a call on this store already, and would wait for itself")
            try:
                self._is_taken = True
                yield
            finally:
                self._is_taken = False

    def renew(self) -> None:
        """Nobody's turn, whoever had it: in a process that was forked, where the threads that had it are not."""
        self._lock = threading.RLock()
        self._is_taken = False


# All that there are.
_all: "weakref.WeakSet[Turns]" = weakref.WeakSet()


def _renew_all() -> None:
    """Makes the stores of a forked process its own."""
    for turns in list(_all):
        turns.renew()


os.register_at_fork(after_in_child=_renew_all)
