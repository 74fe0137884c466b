"""The numbers and strings of Nix's worker protocol.

A number has 8 bytes, the lowest first. A string is its length as a number, its bytes, and zeros up to a multiple of 8; a
list of strings is their number and each of them.
"""

import asyncio
import time
from enum import IntEnum
from typing import Callable, Iterable, List, Optional, TypeVar

_T = TypeVar("_T")

MAGIC_OF_CLIENT = 0x6E697863
MAGIC_OF_SERVER = 0x6478696F
# 1.25: errors come as a text and a status, and a NAR that is sent comes in frames.
VERSION = (1 << 8) | 25


class Operation(IntEnum):
    """What a daemon is asked for."""

    BUILD_PATHS = 9
    ADD_INDIRECT_ROOT = 12
    FIND_ROOTS = 14
    SET_OPTIONS = 19
    QUERY_PATH_INFO = 26
    QUERY_VALID_PATHS = 31
    NAR_FROM_PATH = 38
    ADD_TO_STORE_NAR = 39


class Message(IntEnum):
    """What a daemon says before it answers."""

    NEXT = 0x6F6C6D67
    READ = 0x64617461
    WRITE = 0x64617416
    LAST = 0x616C7473
    ERROR = 0x63787470
    START_ACTIVITY = 0x53545254
    STOP_ACTIVITY = 0x53544F50
    RESULT = 0x52534C54


# Kinds of results that are a line of a builder's.
LOG_LINES = (101, 107)
# The verbosity at which Nix says what it does: lvlInfo.
INFO = 3
# The longest string that is taken, in bytes.
LONGEST = 1 << 28


class NotSpoken(Exception):
    """What came isn't of the protocol."""


def number(value: int) -> bytes:
    return value.to_bytes(8, "little")


def string(value: bytes) -> bytes:
    return number(len(value)) + value + bytes(-len(value) % 8)


def words(value: str) -> bytes:
    """A string of text, such as a store path."""
    return string(value.encode(errors="surrogateescape"))


def strings(values: Iterable[str]) -> bytes:
    parts = [words(value) for value in values]
    return number(len(parts)) + b"".join(parts)


def framed(data: bytes) -> bytes:
    """Bytes of which the reader doesn't know the end: in one frame, and an empty one behind it."""
    return (number(len(data)) + data if data else b"") + number(0)


class _Short(Exception):
    """There isn't enough yet of what is read."""


class Hearing:
    """Reads numbers and strings from a stream.

    What is read at once is a function over this object, which calls its methods; it is called again from its beginning
    where there wasn't enough, and so has no effects.
    """

    def __init__(self, stream: asyncio.StreamReader) -> None:
        self._stream = stream
        self._held = b""
        self._at = 0
        # when something came, by the monotonic clock
        self.heard_at = 0.0

    async def hear(self, read: "Callable[[Hearing], _T]", patience: Optional[float] = None) -> _T:
        """What the function reads; EOFError where the stream ends before, and asyncio.TimeoutError where nothing comes for so
        many seconds."""
        begin = self._at
        while True:
            try:
                return read(self)
            except _Short:
                part = await asyncio.wait_for(self._stream.read(1 << 16), patience)
                if not part:
                    raise EOFError from None
                self.heard_at = time.monotonic()
                self._held = self._held[begin:] + part
                begin = self._at = 0

    def number(self) -> int:
        at = self._at
        if len(self._held) < at + 8:
            raise _Short
        self._at = at + 8
        return int.from_bytes(self._held[at : at + 8], "little")

    def string(self) -> bytes:
        length = self.number()
        if length > LONGEST:
            raise NotSpoken(f"a string of {length} bytes")
        return self.bytes(length + -length % 8)[:length]

    def words(self) -> str:
        return self.string().decode(errors="surrogateescape")

    def strings(self) -> List[str]:
        return [self.words() for _ in range(self.number())]

    def bytes(self, count: int) -> bytes:
        at = self._at
        if len(self._held) < at + count:
            raise _Short
        self._at = at + count
        return self._held[at : at + count]
