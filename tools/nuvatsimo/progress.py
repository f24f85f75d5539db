"""Shows how far long work is. It writes to standard error, and only to a terminal."""

from __future__ import annotations

import sys
import time

_EVERY = 1.0


class Progress:
    """Tells once a second how many of the steps are done. A `with` wipes its line at the end."""

    def __init__(self, what: str, total: int) -> None:
        self._what = what
        self._total = total
        self._is_shown = False
        self._next = time.monotonic() + _EVERY
        self.is_on = sys.stderr is not None and sys.stderr.isatty()

    def __enter__(self) -> Progress:
        return self

    def __exit__(self, *_: object) -> None:
        if self._is_shown:
            sys.stderr.write("\r\x1b[K")
            sys.stderr.flush()

    def at(self, done: int) -> None:
        """Takes note that so many steps are done. Call it as often as every 1,000 steps."""
        if not self.is_on or time.monotonic() < self._next:
            return
        self._next = time.monotonic() + _EVERY
        self._is_shown = True
        part = 100 * done // self._total if self._total else 0
        sys.stderr.write(f"\r\x1b[K{self._what}: {done} of {self._total} ({part} %)")
        sys.stderr.flush()
