"""The folder of a run: its lock, what lies in it, and files that are put into it whole."""

import asyncio
import fcntl
import glob
import os
import re
import shutil
import signal
import tempfile
import time
from typing import List, Optional

from . import guard
from .errors import GivenUp

# What a run makes in its folder, besides `gcroots` and `logs`.
_MADE = re.compile(
    r"\.unfinished|bundle|info|park|journal|history|verdict|events|result|\d.*\.\d.*\.log|result-\d.*"
    r"|(bundle|info|left|journal|history|verdict|park)\.\d.*",
    re.DOTALL,
)
# What each command makes anew, also where it goes on with a run.
_TOLD = re.compile(r"report|report\.json|trace\.json|junit\.xml|index\.html|\..*\.new", re.DOTALL)
# The room that a run takes at least, in KiB.
_ROOM = 1024
# The room that is left to a run where something is written that nothing hangs on, in KiB.
_SPARED = 8 * _ROOM


def say(words: str) -> None:
    """Says something on standard error. That nobody reads it is no fault."""
    write_error(f"build: {words}\n")


def write_error(text: str) -> None:
    _write(2, text)


def write_out(text: str) -> None:
    """Writes to standard output. That nobody reads it is no fault."""
    _write(1, text)


def _write(descriptor: int, text: str) -> None:
    left = text.encode(errors="surrogateescape")
    try:
        while left:
            left = left[os.write(descriptor, left) :]
    except OSError:
        pass


def _room(disk: str) -> int:
    """The room that is left on the disk of a folder, in KiB."""
    system = os.statvfs(disk)
    return system.f_bavail * system.f_frsize // 1024


def _is_locked(file: str) -> bool:
    """Whether another process has a lock on a file."""
    try:
        with open(file, "rb") as one:
            fcntl.flock(one, fcntl.LOCK_EX | fcntl.LOCK_NB)
    except BlockingIOError:
        return True
    except OSError:
        return False
    return False


def _lock(file: int) -> bool:
    """Takes the lock of a folder. Whoever only looks whether it is taken, as farm/watch, has it for a moment."""
    for _ in range(5):
        try:
            fcntl.flock(file, fcntl.LOCK_EX | fcntl.LOCK_NB)
            return True
        except BlockingIOError:
            time.sleep(0.02)
        except OSError:
            return True
    return False


def goes_on_in(folder: str) -> bool:
    """Whether a run has the lock of a folder."""
    try:
        with open(f"{folder}/.lock", "rb") as lock:
            fcntl.flock(lock, fcntl.LOCK_SH | fcntl.LOCK_NB)
    except BlockingIOError:
        return True
    except OSError:
        return False
    return False


class Seen:
    """The folder of a run, as it is looked at."""

    def __init__(self, out: str) -> None:
        self.out = out

    def at(self, name: str) -> str:
        return f"{self.out}/{name}"


class Folder(Seen):
    """The folder of a run, which is the only one that runs there, and the one of its agents below /tmp."""

    def __init__(self, out: str, shared: str) -> None:
        """GivenUp where the folder can't be made or written to, or where another run goes on in it."""
        self.shared = shared
        self.is_stranded = False
        self._is_linked = False
        if not out:
            out = tempfile.mkdtemp(prefix="nix-dispatch.", dir=os.environ.get("TMPDIR") or "/tmp")
        try:
            os.makedirs(out, exist_ok=True)
        except OSError as error:
            raise GivenUp(5, f"the folder {out} can't be made") from error
        super().__init__(os.path.abspath(out))
        write_error(self.out + "\n")
        self.is_known = os.path.lexists(self.at(".lock"))
        try:
            self._lock = os.open(self.at(".lock"), os.O_WRONLY | os.O_APPEND | os.O_CREAT | os.O_CLOEXEC, 0o666)
        except OSError as error:
            raise GivenUp(5, f"the folder {self.out} can't be written to") from error
        if not _lock(self._lock):
            raise GivenUp(5, f"another build goes on in {self.out}")

    def in_shared(self, name: str) -> str:
        return f"{self.shared}/{name}"

    async def wait_for_killed(self) -> None:
        """Waits for the run of a build that was killed, which its guard ends in a moment, or which is ended here where the
        guard was killed too; takes away what it has left.

        GivenUp where that run goes on for twenty seconds.
        """
        try:
            killed = os.readlink(self.at(".agents"))
        except OSError:
            killed = ""
        is_one = re.fullmatch(r"/tmp/nix-dispatch\.[^/]*", killed) is not None
        if is_one:
            _end_left_run(killed)
        for journal in glob.glob(glob.escape(self.out) + "/journal.*"):
            beats = 0
            while _is_locked(journal):
                beats += 1
                if beats > 100:
                    going = f"the run of a build that was killed still goes on in {self.out}"
                    raise GivenUp(5, f"{going}: {journal} is locked")
                await asyncio.sleep(0.2)
        # what is left in /tmp of one that was killed together with its guard; what its agents had begun may still go on
        if is_one:
            guard.end_connections(killed, "stop")
            guard.remove(killed)

    def clean(self, is_gone_on: bool) -> None:
        """Takes away what an earlier run has made. What isn't known to be of one stays."""
        for name in os.listdir(self.out):
            if _TOLD.fullmatch(name) or (not is_gone_on and _MADE.fullmatch(name)):
                _remove(self.at(name))
        if self.is_known and not is_gone_on:
            for name in ("gcroots", "logs"):
                _remove(self.at(name))

    def look_for_room(self, store: str) -> None:
        """GivenUp where a disk is full that the run writes to."""
        for disk in (self.out, store, self.shared):
            try:
                room = _room(disk)
            except OSError:
                continue
            if room < _ROOM:
                raise GivenUp(5, f"the disk of {disk} is full: it has {room} KiB left, and a run takes {_ROOM} at least")

    def link_agents(self) -> None:
        """Has the folder say where that of its agents is, for as long as the run goes on."""
        self._link(self.shared, ".agents")
        self._is_linked = True

    def _link(self, to: str, name: str) -> None:
        new = self.at(f".{name.lstrip('.')}.new")
        _remove(new)
        os.symlink(to, new)
        os.replace(new, self.at(name))

    def newest(self, kind: str, number: int) -> None:
        """The link without a number to the round's file of that kind."""
        try:
            self._link(f"{kind}.{number}", kind)
        except OSError:
            self.is_stranded = True

    def put(self, name: str, text: bytes) -> None:
        """Puts a file in place whole. Where it can't be it is left in the folder of the agents, which stays."""
        new = self.at(f".{name.lstrip('.')}.new")
        try:
            if _read(self.at(name)) == text:
                return
            with open(new, "wb") as file:
                file.write(text)
            os.replace(new, self.at(name))
        except OSError:
            _remove(new)
            self.is_stranded = True
            self.keep(name, text)
            say(f"the disk of {self.out} is full, or can't be written to: {name} is left in {self.in_shared(name)}")

    def offer(self, name: str, text: bytes) -> None:
        """Puts a file in place whole that nothing hangs on. Where the disk has no room for it and for a run besides, or
        can't be written to, the one before stays, or there is none."""
        new = self.at(f".{name.lstrip('.')}.new")
        try:
            if _room(self.out) < len(text) // 1024 + _SPARED:
                return
            with open(new, "wb") as file:
                file.write(text)
            os.replace(new, self.at(name))
        except OSError:
            _remove(new)

    def keep(self, name: str, text: bytes) -> None:
        """Writes a file in the folder of the agents."""
        try:
            with open(self.in_shared(name), "wb") as file:
                file.write(text)
        except OSError:
            pass

    def remove(self, name: str) -> None:
        _remove(self.at(name))

    def make_durable(self, names: List[str]) -> None:
        """Has files, and that the folder has them, survive a machine that stops."""
        for name in [*names, "."]:
            try:
                file = os.open(self.at(name), os.O_RDONLY)
            except OSError:
                continue
            try:
                os.fsync(file)
            except OSError:
                pass
            finally:
                os.close(file)

    def leave(self, has_ended: bool) -> None:
        """Takes away what only this process needs, and what only a run needs that goes on."""
        if has_ended:
            _remove(self.at("gcroots"))
        if self._is_linked:
            _remove(self.at(".agents"))


def _end_left_run(shared: str) -> None:
    """Ends the program of a run whose other processes were killed: it waits for agents that are gone."""
    try:
        process = int(_read(f"{shared}/program") or b"0")
        words = _read(f"/proc/{process}/cmdline") or b""
        if process > 1 and f"{shared}/pipes".encode() in words.split(b"\0"):
            os.kill(process, signal.SIGKILL)
    except (ValueError, OSError):
        pass


def remove_shared(folder: str) -> None:
    shutil.rmtree(folder, ignore_errors=True)


def _read(file: str) -> Optional[bytes]:
    try:
        with open(file, "rb") as one:
            return one.read()
    except OSError:
        return None


def _remove(path: str) -> None:
    """Takes a file, a link or a folder away, as far as may be."""
    if os.path.isdir(path) and not os.path.islink(path):
        shutil.rmtree(path, ignore_errors=True)
        return
    try:
        os.unlink(path)
    except OSError:
        pass
