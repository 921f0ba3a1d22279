"""Turns: calls that are made one at a time, whatever thread makes them."""
from __future__ import annotations

import threading
from typing import Any, Callable, TypeVar

Answer = TypeVar('Answer')


class ReentryError(RuntimeError):
    """A call on a station was made within another one of the same thread, as by a signal handler. It did nothing."""


class Turns:
    """What may be called once at a time."""

    def __init__(self) -> None:
        # A plain lock could be waited for for ever, by a signal handler of the thread that holds it.
        self.lock, self.busy = threading.RLock(), False

    def take(self, call: Callable[..., Answer], *words: Any) -> Answer:
        """What a call answers that waits for its turn; ReentryError where its thread is within one already."""
        with self.lock:
            if self.busy:
                raise ReentryError('a call on this station is under way in the same thread')
            try:
                self.busy = True
                return call(*words)
            finally:
                self.busy = False
