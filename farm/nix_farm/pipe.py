"""A pair of named pipes between an agent and nix-dispatch: calls that are read, and answers that are written.

Both ends of each are open here, and in the program too where it is handed them: so neither side waits for the other at
the start, and where this process is killed the program notices nothing of it until it is ended itself, and writes no end
of a lease that it would take for one. Whoever reads the calls is called off when the program has ended.
"""

import asyncio
import os
from typing import List, Optional


class Pipes:
    """The pipes of one slot in a folder."""

    def __init__(self, folder: str, place: str) -> None:
        """OSError where they can't be made."""
        self._calls = self._answers = -1
        self._unread = bytearray()
        names = [f"{folder}/{place}.calls", f"{folder}/{place}.answers"]
        for name in names:
            os.mkfifo(name, 0o600)
        self._calls, self._answers = (os.open(name, os.O_RDWR | os.O_NONBLOCK | os.O_CLOEXEC) for name in names)

    @property
    def descriptors(self) -> List[int]:
        return [self._calls, self._answers]

    async def _until(self, add: "asyncio.AbstractEventLoop", is_writing: bool) -> None:
        waiting: "asyncio.Future[None]" = add.create_future()

        def ready() -> None:
            if not waiting.done():
                waiting.set_result(None)

        if is_writing:
            add.add_writer(self._answers, ready)
        else:
            add.add_reader(self._calls, ready)
        try:
            await waiting
        finally:
            (add.remove_writer if is_writing else add.remove_reader)(self._answers if is_writing else self._calls)

    async def read_line(self) -> str:
        """The next call, without its newline. Whatever was read stays where this is called off."""
        searched = 0
        while True:
            end = self._unread.find(b"\n", searched)
            if end >= 0:
                line = self._unread[:end].decode(errors="surrogateescape")
                del self._unread[: end + 1]
                return line
            searched = len(self._unread)
            part = self._read()
            if part is None:
                await self._until(asyncio.get_running_loop(), False)
            else:
                self._unread += part

    def _read(self) -> Optional[bytes]:
        try:
            return os.read(self._calls, 1 << 16)
        except BlockingIOError:
            return None

    async def write_line(self, line: str) -> None:
        """Writes an answer."""
        left = memoryview(line.encode(errors="surrogateescape") + b"\n")
        while left:
            try:
                left = left[os.write(self._answers, left) :]
            except BlockingIOError:
                await self._until(asyncio.get_running_loop(), True)

    def close(self) -> None:
        for descriptor in (self._calls, self._answers):
            if descriptor >= 0:
                os.close(descriptor)
        self._calls = self._answers = -1
