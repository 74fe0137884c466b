"""Runs tests side by side: most of their time goes to processes that they wait for."""

import os
import threading
import unittest
from concurrent.futures import ThreadPoolExecutor
from typing import Any, Callable, Iterator

LANES = max(4, min(16, 2 * (os.cpu_count() or 2)))


class _Locked:
    """A result that one test at a time speaks to."""

    def __init__(self, result: Any) -> None:
        self._result, self._lock = result, threading.RLock()

    def __getattr__(self, name: str) -> Any:
        found = getattr(self._result, name)
        return self._hold(found) if callable(found) else found

    def _hold(self, call: Callable[..., Any]) -> Callable[..., Any]:
        def held(*given: Any, **named: Any) -> Any:
            with self._lock:
                return call(*given, **named)

        return held


class SideBySide(unittest.TestSuite):
    """The tests of a suite, a few at once."""

    def run(self, result: Any, debug: bool = False) -> Any:
        shared = _Locked(result)
        with ThreadPoolExecutor(LANES) as pool:
            list(pool.map(lambda test: test.run(shared), each(self)))
        return result


def each(suite: Any) -> Iterator[Any]:
    """The tests of a suite and of those within it."""
    for one in suite:
        if isinstance(one, unittest.TestSuite):
            yield from each(one)
        else:
            yield one
