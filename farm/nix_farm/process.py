"""Nix's commands and other children: each in a process group of its own, without a thread and without a shell.

A child's standard input is empty. It has no terminal, so what comes from a keyboard reaches only whoever started it, and
nothing can ask for a password. Each is told to a guard, which ends it where this process is killed.
"""

import asyncio
import os
import signal
import sys
import tempfile
import time
from typing import IO, Callable, Dict, List, Mapping, NamedTuple, Optional, Sequence, Set

from . import blame
from .guard import Guard

# The seconds that a child has to end by itself once it is told to, and those that one has which is killed.
GRACE = 5.0
_KILLED = 60.0
# The seconds between two looks at whether a child has ended whose pipes are held.
_LOOK = 0.1


class Ended(NamedTuple):
    """How a command ended: its status as a shell has it, what it printed, and what it said on standard error."""

    status: int
    out: bytes
    said: bytes

    @property
    def lines(self) -> List[str]:
        return self.out.decode(errors="surrogateescape").split("\n")[:-1]

    def last_words(self) -> str:
        lines = self.said.decode(errors="replace").strip().split("\n")
        return lines[-1]


def status_of(code: int) -> int:
    """A status as a shell has it: of a child that was ended by a signal 128 and the signal's number."""
    return 128 - code if code < 0 else code


def watch_children_by_descriptor() -> None:
    """Has the loops of Python before 3.12 wait for children by a descriptor of each, and not by a thread."""
    if sys.version_info >= (3, 12) or not hasattr(os, "pidfd_open"):
        return
    try:
        os.close(os.pidfd_open(os.getpid(), 0))
    except OSError:
        return
    watcher = asyncio.PidfdChildWatcher()
    watcher.attach_loop(asyncio.get_event_loop())
    asyncio.set_child_watcher(watcher)


def signal_group(process: int, number: int) -> None:
    """Signals a child that leads a group, and all in it; one that is gone doesn't matter."""
    try:
        os.killpg(process, number)
    except (ProcessLookupError, PermissionError):
        pass


async def has_ended(process: asyncio.subprocess.Process, seconds: float) -> bool:
    """Whether a child ends in so many seconds. From Python 3.11 on `wait` waits for the ends of its pipes too, which never
    come where more was said than is read, or where a child of its own holds them."""
    waiting = asyncio.ensure_future(process.wait())
    until = time.monotonic() + seconds
    try:
        while process.returncode is None and time.monotonic() < until:
            await asyncio.wait([waiting], timeout=_LOOK)
    finally:
        waiting.cancel()
    return process.returncode is not None


def _close_pipes(process: asyncio.subprocess.Process) -> None:
    """Closes the pipes of a child that has ended; asyncio itself leaves those open that somebody else holds."""
    transport: asyncio.SubprocessTransport = getattr(process, "_transport")
    transport.close()


class Processes:
    """The children of a run."""

    def __init__(self, guard: Guard, folder: str) -> None:
        self._guard = guard
        self._folder = folder
        self._alive: Dict[int, asyncio.subprocess.Process] = {}
        self._commands: Set[int] = set()

    async def start(
        self,
        words: Sequence[str],
        env: Optional[Mapping[str, str]] = None,
        stdin: int = asyncio.subprocess.DEVNULL,
        stdout: "int | IO[bytes]" = asyncio.subprocess.DEVNULL,
        stderr: "int | IO[bytes]" = asyncio.subprocess.DEVNULL,
        handed: Sequence[int] = (),
        ignores_pipe: bool = False,
    ) -> asyncio.subprocess.Process:
        """Starts a child; OSError where it can't be started. `handed` are descriptors that it keeps."""
        process = await asyncio.create_subprocess_exec(
            *words,
            env=env,
            stdin=stdin,
            stdout=stdout,
            stderr=stderr,
            start_new_session=True,
            pass_fds=handed,
            restore_signals=not ignores_pipe,
            limit=1 << 20,
        )
        self._alive[process.pid] = process
        self._guard.add(process.pid)
        return process

    def forget(self, process: asyncio.subprocess.Process) -> None:
        """To be called once a child has ended and was waited for."""
        if self._alive.pop(process.pid, None) is not None:
            self._guard.drop(process.pid)

    async def run(
        self,
        words: Sequence[str],
        env: Optional[Mapping[str, str]] = None,
        bound: Optional[float] = None,
        started: Callable[[int], None] = lambda process: None,
    ) -> Ended:
        """Runs a command to its end, which is that of its group; `started` is told the number of its process.

        What takes longer than `bound` seconds has the status 124. Where it can't be started the status is 127.
        """
        with tempfile.TemporaryFile(dir=self._folder) as out, tempfile.TemporaryFile(dir=self._folder) as said:
            try:
                process = await self.start(words, env, stdout=out, stderr=said)
            except OSError as error:
                return Ended(127, b"", f"error: {words[0]}: {error.strerror}".encode())
            self._commands.add(process.pid)
            started(process.pid)
            late = False
            try:
                await asyncio.wait_for(process.wait(), bound)
            except asyncio.TimeoutError:
                late = True
            finally:
                self._commands.discard(process.pid)
                await self.end(process)
            status = blame.TIMED_OUT if late else status_of(process.returncode or 0)
            out.seek(0)
            said.seek(0)
            return Ended(status, out.read(), said.read())

    async def run_over(self, words: Sequence[str], paths: Sequence[str], env: Optional[Mapping[str, str]] = None) -> Ended:
        """Runs a command over so many paths that one command can't name them: once for each few thousand."""
        out = said = b""
        for at in range(0, len(paths), 2000):
            part = await self.run([*words, *paths[at : at + 2000]], env)
            out += part.out
            said += part.said
            if part.status != 0:
                return Ended(part.status, out, said)
        return Ended(0, out, said)

    async def end(self, process: asyncio.subprocess.Process, grace: float = GRACE) -> None:
        """Ends a child: at once where it hears, and by force where it doesn't in so many seconds. What it has said and nobody
        has read is gone."""
        if process.returncode is None:
            signal_group(process.pid, signal.SIGTERM)
            if not await has_ended(process, grace):
                signal_group(process.pid, signal.SIGKILL)
                await has_ended(process, _KILLED)
        _close_pipes(process)
        self.forget(process)

    def end_commands(self) -> None:
        """Tells all commands that run by now to end, as Ctrl-C does."""
        for process in self._commands:
            signal_group(process, signal.SIGTERM)
