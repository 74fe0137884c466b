"""Waits that have a bound: what is waited for moves, or it is given up.

What moves are the bytes that a process of Nix and those below it read and write, but for ssh, which says something also
where nothing comes; and what it says to us.
"""

import asyncio
import time
from typing import Any, Awaitable, Callable, List, Mapping, Optional, Sequence, TypeVar

from .process import Ended, Processes

_T = TypeVar("_T")

# The seconds between two looks.
BEAT = 1.0
# The seconds for which nothing is heard of a lease before its machine is asked.
ASKED_BEHIND = 60.0
# The seconds that a build may be behind a bound of Nix's own, where it can be seen what moves, and where Nix's daemon has it.
SOME = 60.0
SOME_BY_DAEMON = 600.0


class Stalled(Exception):
    """What was given up, and why."""


def _below(process: int) -> List[int]:
    """A process and those below it, as far as they can be seen."""
    found = [process]
    for one in found:
        try:
            with open(f"/proc/{one}/task/{one}/children", encoding="ascii") as text:
                found += [int(word) for word in text.read().split()]
        except OSError:
            continue
    return found


def _moved(process: int) -> int:
    """The bytes that a process has read and written by now; 0 where that can't be seen."""
    try:
        with open(f"/proc/{process}/comm", encoding="ascii", errors="replace") as text:
            if text.read().strip() == "ssh":
                return 0
        with open(f"/proc/{process}/io", encoding="ascii") as text:
            return sum(int(line.split()[1]) for line in text if line.startswith(("rchar", "wchar")))
    except (OSError, ValueError, IndexError):
        return 0


class Progress:
    """Whether a process of Nix moves anything."""

    def __init__(self, process: Callable[[], Optional[int]], heard: Callable[[], float] = lambda: 0.0) -> None:
        """`process` gives its number, and `heard` when it has said something, by the monotonic clock."""
        self._process = process
        self._heard = heard
        self._bytes = -1
        self._moved_at = time.monotonic()

    def quiet(self) -> float:
        """The seconds for which nothing has moved."""
        process = self._process()
        moved = sum(_moved(one) for one in _below(process)) if process is not None else 0
        if moved != self._bytes:
            self._bytes, self._moved_at = moved, time.monotonic()
        return time.monotonic() - max(self._moved_at, self._heard())


async def watched(doing: "Awaitable[_T]", look: Callable[[], Awaitable[str]]) -> _T:
    """What comes of something that is called off where a look says why; then Stalled."""
    task = asyncio.ensure_future(doing)
    try:
        while True:
            await asyncio.wait([task], timeout=BEAT)
            if task.done():
                return task.result()
            why = await look()
            if why and not task.done():
                raise Stalled(why)
    finally:
        await call_off([task])


async def call_off(tasks: "Sequence[asyncio.Future[Any]]") -> None:
    """Calls tasks off until they have ended: `asyncio.wait_for` before Python 3.12 forgets it where what it waits for is done
    in that moment."""
    left = [task for task in tasks if not task.done()]
    while left:
        for task in left:
            task.cancel()
        await asyncio.wait(left, timeout=BEAT)
        left = [task for task in left if not task.done()]
    await asyncio.gather(*tasks, return_exceptions=True)


def stalls(progress: Progress, seconds: float) -> Callable[[], Awaitable[str]]:
    """A look that says it where nothing has moved for so many seconds."""

    async def look() -> str:
        return f"no byte of a copy has moved for {seconds:g} seconds" if progress.quiet() > seconds else ""

    return look


async def run_watched(processes: Processes, words: Sequence[str], env: Optional[Mapping[str, str]], seconds: float) -> Ended:
    """Runs a command of Nix that copies or reads; Stalled where nothing has moved for so many seconds."""
    numbers: List[int] = []
    progress = Progress(lambda: numbers[-1] if numbers else None)
    return await watched(processes.run(words, env, started=numbers.append), stalls(progress, seconds))


class OfBuild:
    """The bounds of a build: those that Nix was given for it and some, and that its machine is there."""

    def __init__(
        self, progress: Progress, timeout: int, silent: int, some: float, is_there: Optional[Callable[[], Awaitable[bool]]]
    ) -> None:
        """`timeout` and `silent` are Nix's bounds in seconds, 0 for none; `is_there` asks the machine."""
        self._progress = progress
        self._timeout = timeout
        self._silent = silent
        self._some = some
        self._is_there = is_there
        self._begun = time.monotonic()

    async def look(self) -> str:
        """Why the build is given up; empty where it isn't."""
        quiet = self._progress.quiet()
        behind = "Nix has not ended the build, and nothing is heard of it"
        if self._timeout and time.monotonic() - self._begun > self._timeout + self._some and quiet > self._some:
            return f"{self._some:g} seconds behind the timeout of {self._timeout} {behind}"
        if self._silent and quiet > self._silent + self._some:
            return f"{self._some:g} seconds behind the {self._silent} that it may be silent {behind}"
        if self._is_there is not None and quiet > ASKED_BEHIND and not await self._is_there():
            return "the machine doesn't answer any more: nothing was heard of the build, and its Nix was asked twice"
        return ""
