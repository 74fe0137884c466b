"""A `nix-daemon --stdio` that is spoken with by Nix's worker protocol, for as long as it is of use.

One process answers many questions, where a command of Nix would be started, and would open the store, for each. It ends
by itself where its input does, as when farm/build is killed. What it says of a build is told as `nix-store --realise`
says it on standard error.
"""

import asyncio
import hashlib
import re
import tempfile
from collections import deque
from typing import IO, Callable, Deque, Dict, Iterable, List, Mapping, NamedTuple, Optional, Sequence, Set, Tuple, TypeVar

from . import wire
from .bounds import Progress
from .process import Processes, has_ended, status_of
from .wire import Message, Operation

_T = TypeVar("_T")

# The seconds for which a store may say nothing that is asked for what it has at hand.
ANSWERS = 300.0
# The same in the middle of a NAR: what is shorter than it was registered never comes.
_PATIENCE = 30.0
# The kind of a build that repairs.
_REPAIR = 1
# How many lines of a builder are told.
LAST_LINES = 25
# What Nix colours its words with.
_ESCAPES = re.compile(rb"\x1b\[[0-9;]*[A-Za-z]|\x1b\][^\x07]*\x07|\r(?=\n)")


class PathInfo(NamedTuple):
    """What a store knows of a valid path; `size` is that of its NAR, in bytes."""

    path: str
    deriver: str
    digest: str
    references: List[str]
    registered: int
    size: int
    ultimate: int
    signatures: List[str]
    content: str


class Failed(Exception):
    """What was asked for wasn't done: the status, and what was said."""

    def __init__(self, status: int, said: bytes) -> None:
        super().__init__(said.decode(errors="replace"))
        self.status = status
        self.said = said


class Daemon:
    """One such process. It answers one question at a time; whoever asks sees to that."""

    def __init__(
        self,
        processes: Processes,
        folder: str,
        env: Optional[Mapping[str, str]] = None,
        name: str = "",
        patience: Optional[float] = ANSWERS,
    ) -> None:
        """`env` are the variables that the process has; what it says by itself is kept in the file `name` of a folder. It may
        say nothing for `patience` seconds where it is asked for something, but for a build; None where whoever asks bounds
        that."""
        self._processes = processes
        self._env = env
        self._folder = folder
        self._name = name
        self._patience = patience
        self._said: Optional[IO[bytes]] = None
        self._process: Optional[asyncio.subprocess.Process] = None
        self._hear: Optional[wire.Hearing] = None
        # the last lines of the builder of the last build
        self.builder_said: Deque[bytes] = deque(maxlen=LAST_LINES)
        self._settings = b""
        self._asked = False

    @property
    def is_open(self) -> bool:
        return self._process is not None and self._process.returncode is None

    @property
    def progress(self) -> Progress:
        """Whether the process moves anything, from now on."""
        return Progress(lambda: self._process.pid if self._process is not None else None, lambda: self._heard_at)

    @property
    def _hearing(self) -> wire.Hearing:
        assert self._hear is not None
        return self._hear

    @property
    def _heard_at(self) -> float:
        return self._hear.heard_at if self._hear is not None else 0.0

    async def open(self) -> None:
        """Starts the process and greets it; Failed where it doesn't answer, or can't open its store."""
        words = ["nix-daemon", "--stdio"]
        pipe = asyncio.subprocess.PIPE
        if self._said is not None:
            self._said.close()
        file = f"{self._folder}/{self._name}.said"
        self._said = open(file, "w+b") if self._name else tempfile.TemporaryFile(dir=self._folder)
        try:
            self._process = await self._processes.start(words, self._env, stdin=pipe, stdout=pipe, stderr=self._said)
        except OSError as error:
            raise Failed(127, f"error: nix-daemon: {error.strerror}".encode()) from error
        assert self._process.stdout is not None
        self._hear = wire.Hearing(self._process.stdout)
        self._settings = b""
        try:
            await self._greet()
        except (EOFError, OSError, wire.NotSpoken, asyncio.TimeoutError) as error:
            raise await self._gone(error) from error

    async def _greet(self) -> None:
        self._send(wire.number(wire.MAGIC_OF_CLIENT))
        magic, _version = await self._hearing.hear(lambda hear: (hear.number(), hear.number()), self._patience)
        if magic != wire.MAGIC_OF_SERVER:
            raise wire.NotSpoken("another magic number")
        # the version, and no processor and no reserved space
        self._send(wire.number(wire.VERSION) + wire.number(0) + wire.number(0))
        await self._answered(None, self._patience)

    def _send(self, data: bytes) -> None:
        assert self._process is not None and self._process.stdin is not None
        self._process.stdin.write(data)

    async def _gone(self, error: BaseException) -> Failed:
        """The failure of a process that is gone, that says nothing any more, or that speaks of something else."""
        process = self._process
        assert process is not None
        await self.close()
        silent = b"error: nix-daemon says nothing any more\n" if isinstance(error, asyncio.TimeoutError) else b""
        return Failed(status_of(process.returncode or 0) or 1, self.said() + silent)

    def said(self) -> bytes:
        """What the process itself has said on standard error: ssh speaks there."""
        if self._said is None:
            return b""
        self._said.seek(0)
        return _ESCAPES.sub(b"", self._said.read())

    async def close(self) -> None:
        """Ends the process, by the end of its input; one that was called off in the middle at once."""
        process, self._process = self._process, None
        asked, self._asked = self._asked, False
        if process is None:
            return
        if process.stdin is not None:
            process.stdin.close()
        if not asked:
            await has_ended(process, 1)
        await self._processes.end(process)

    async def _call(
        self,
        operation: Operation,
        words: bytes,
        answer: Optional[Callable[[wire.Hearing], _T]] = None,
        told: Optional[IO[bytes]] = None,
        patience: Optional[float] = None,
    ) -> Optional[_T]:
        """Asks, hears what is said up to the answer, and the answer. Failed where there is none, or nothing is heard for so
        many seconds; what is said of a build comes when it comes.

        A question that was called off leaves a process that still answers it: the next one has another process.
        """
        bound = None if told is not None else patience or self._patience
        if self._asked:
            await self.close()
        if not self.is_open:
            await self.open()
        self._asked = True
        try:
            self._send(wire.number(operation) + words)
            await self._answered(told, bound)
            answered = await self._hearing.hear(answer, bound) if answer is not None else None
        except Failed:
            self._asked = False
            raise
        except (EOFError, OSError, wire.NotSpoken, asyncio.TimeoutError) as error:
            raise await self._gone(error) from error
        self._asked = False
        return answered

    async def _answered(self, told: Optional[IO[bytes]], patience: Optional[float]) -> None:
        """Hears what is said before an answer, and tells what a builder and Nix say of a build."""
        while True:
            kind, words, status = await self._hearing.hear(_message, patience)
            if kind == Message.LAST:
                return
            if kind == Message.ERROR:
                raise Failed(status or 1, _plain(words))
            if told is not None and words:
                told.write(_plain(words))
                if kind == Message.RESULT:
                    self.builder_said.append(_plain(words))

    async def is_trusted(self) -> bool:
        """Whether the store trusts this user; Failed where it can't be asked. It is asked to repair nothing, which it
        refuses to others, as it leaves out their settings without a word."""
        try:
            await self._call(Operation.BUILD_PATHS, wire.strings([]) + wire.number(_REPAIR), wire.Hearing.number)
        except Failed as failed:
            if b"trusted-users" in failed.said:
                return False
            raise
        return True

    async def set_options(self, settings: "Settings") -> None:
        """What the builds that follow go by."""
        words = settings.spoken()
        if words != self._settings or not self.is_open:
            await self._call(Operation.SET_OPTIONS, words)
            self._settings = words

    async def build(self, drv: str, told: IO[bytes]) -> int:
        """Builds a derivation; what is said goes to `told`. The status is that of `nix-store --realise`."""
        self.builder_said.clear()
        try:
            await self._call(Operation.BUILD_PATHS, wire.strings([drv]) + wire.number(0), wire.Hearing.number, told)
        except Failed as failed:
            told.write(failed.said)
            return failed.status
        return 0

    async def valid_paths(self, paths: Iterable[str]) -> Set[str]:
        """Those of the paths that are valid."""
        found = await self._call(Operation.QUERY_VALID_PATHS, wire.strings(paths), wire.Hearing.strings)
        return set(found or ())

    async def path_info(self, path: str) -> Optional[PathInfo]:
        """What the store knows of a path; None where it isn't valid."""
        return await self._call(Operation.QUERY_PATH_INFO, wire.words(path), lambda hear: _path_info(hear, path))

    async def nar(self, info: PathInfo) -> bytes:
        """The NAR of a path, all of it; Failed where it isn't the one that was registered."""
        asked = wire.words(info.path)
        found = await self._call(Operation.NAR_FROM_PATH, asked, lambda hear: hear.bytes(info.size), patience=_PATIENCE)
        if found is None or hashlib.sha256(found).hexdigest() != info.digest:
            await self.close()
            raise Failed(1, f"error: path '{info.path}' isn't as it was registered\n".encode())
        return found

    async def add(self, info: PathInfo, nar: bytes) -> None:
        """Adds a path by its NAR, without a look at signatures."""
        words = [
            wire.words(info.path),
            wire.words(info.deriver),
            wire.words(info.digest),
            wire.strings(info.references),
            *(wire.number(value) for value in (info.registered, info.size, 0)),
            wire.strings(info.signatures),
            wire.words(info.content),
            # no repair, and no check of signatures
            wire.number(0),
            wire.number(1),
            wire.framed(nar),
        ]
        await self._call(Operation.ADD_TO_STORE_NAR, b"".join(words))

    async def keep_links(self, links: Sequence[str]) -> None:
        """Keeps what links lead to from the garbage collector as long as these stand. Many are asked for at once."""
        for at in range(0, len(links), 128):
            part = [wire.words(link) for link in links[at : at + 128]]
            asked = wire.number(Operation.ADD_INDIRECT_ROOT).join(part)
            await self._call(Operation.ADD_INDIRECT_ROOT, asked, _answers_to(len(part)))

    async def find_roots(self) -> None:
        """Has the store look for its roots; it takes away what it keeps of links that are gone."""
        await self._call(Operation.FIND_ROOTS, b"", lambda hear: [hear.words() for _ in range(2 * hear.number())])


def _answers_to(count: int) -> Callable[[wire.Hearing], None]:
    """Reads the numbers that answer so many questions, of which the first one's messages have been heard."""

    def read(hear: wire.Hearing) -> None:
        hear.number()
        for _ in range(count - 1):
            kind, words, status = _message(hear)
            while kind not in (Message.LAST, Message.ERROR):
                kind, words, status = _message(hear)
            if kind == Message.ERROR:
                raise wire.NotSpoken(words.decode(errors="replace"))
            hear.number()

    return read


def _message(hear: wire.Hearing) -> Tuple[int, bytes, int]:
    """What a daemon says next: the kind, the words, which may be none, and of an error the status."""
    kind = hear.number()
    words, status = b"", 0
    if kind == Message.NEXT:
        words = hear.string()
    elif kind == Message.START_ACTIVITY:
        level = [hear.number() for _ in range(3)][1]
        words = hear.string()
        words = words + b"..." if words and level <= wire.INFO else b""
        _fields(hear)
        hear.number()
    elif kind == Message.RESULT:
        result = [hear.number() for _ in range(2)][1]
        fields = _fields(hear)
        words = fields[0] + b"\n" if result in wire.LOG_LINES and fields else b""
    elif kind == Message.STOP_ACTIVITY:
        hear.number()
    elif kind == Message.ERROR:
        words, status = hear.string(), hear.number()
    elif kind != Message.LAST:
        raise wire.NotSpoken(f"a message {kind:x}")
    return kind, words, status


def _fields(hear: wire.Hearing) -> List[bytes]:
    """The strings of a message's fields."""
    found = []
    for _ in range(hear.number()):
        if hear.number() == 0:
            hear.number()
        else:
            found.append(hear.string())
    return found


def _path_info(hear: wire.Hearing, path: str) -> Optional[PathInfo]:
    if hear.number() == 0:
        return None
    deriver, digest, references = hear.words(), hear.words(), hear.strings()
    registered, size, ultimate = hear.number(), hear.number(), hear.number()
    return PathInfo(path, deriver, digest, references, registered, size, ultimate, hear.strings(), hear.words())


class Settings(NamedTuple):
    """What a build goes by, as Nix's settings have it; `others` are settings by their names."""

    keep_failed: bool
    fallback: bool
    jobs: int
    silent: int
    cores: int
    others: Dict[str, str]

    def spoken(self) -> bytes:
        """The words of the operation that sets them: builds are said in full, and substituters aren't asked."""
        values = [self.keep_failed, False, self.fallback, wire.INFO, self.jobs, self.silent, True, 0, 0, 0, self.cores, False]
        others = [wire.words(name) + wire.words(value) for name, value in self.others.items()]
        return b"".join([*(wire.number(int(value)) for value in values), wire.number(len(others)), *others])


def _plain(words: bytes) -> bytes:
    """A message as it stands in a file: without colours, with an end."""
    words = _ESCAPES.sub(b"", words)
    return words if words.endswith(b"\n") else words + b"\n"
