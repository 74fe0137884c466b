"""A build on a machine by Nix's build hook, with that machine as its one builder; or here."""

import os
import tempfile
from typing import IO, Awaitable, Callable, List, Mapping, Optional, Sequence

from .blame import TIMED_OUT, Fault, fault_of
from .bounds import SOME, SOME_BY_DAEMON, OfBuild, Stalled, watched
from .daemon import Daemon, Failed
from .derivation import Derivation
from .here import Here
from .keys import is_by_daemon
from .machine import Connection
from .options import Options
from .park import Machine, Place
from .process import Processes
from .settings import bounds_of_builds, of_builds

# What is kept in memory of the messages of a build, in bytes, and how much of them is looked at for a cause.
_KEPT = 1 << 18
_LOOKED_AT = 1 << 24


class Builds:
    """The builds of one slot, by a process that is kept open while one follows another."""

    def __init__(
        self,
        place: Place,
        machine: Machine,
        connection: Optional[Connection],
        processes: Processes,
        folder: str,
        here: Here,
        options: Options,
        settings: Mapping[str, str],
        logs: str,
        is_there: Optional[Callable[[], Awaitable[bool]]],
    ) -> None:
        """`folder` is that of the agents, and `logs` the one for what Nix says of builds that don't end well; `is_there` asks
        the machine."""
        self._is_there = is_there
        env = connection.env if connection is not None else None
        self._daemon = Daemon(processes, folder, env, f"{place}")
        self._machine = machine
        self._folder = folder
        self._here = here
        self._options = options
        self._settings = settings
        self._logs = logs
        self.where = "here" if machine.is_local else "there"

    @property
    def is_open(self) -> bool:
        return self._daemon.is_open

    async def build(self, drv: Derivation, log: Callable[[bytes], None], ended: Callable[[int], None]) -> Optional[Fault]:
        """Builds a derivation whose inputs are valid here: None, or whose fault it is. `ended` is told Nix's status."""
        if self._machine.is_local:
            jobs, builders = self._machine.jobs, ""
        else:
            jobs, builders = 0, self._machine.builders(drv.platform, ",".join(drv.features))
        stalled: Optional[Fault] = None
        with tempfile.SpooledTemporaryFile(_KEPT, dir=self._folder) as said:
            try:
                await self._daemon.set_options(of_builds(self._options, self._settings, jobs, builders))
                status = await watched(self._daemon.build(drv.path, said), self._bounds().look)
            except Failed as failed:
                said.write(failed.said)
                status = failed.status
            except Stalled as why:
                await self._daemon.close()
                status, stalled = TIMED_OUT, Fault("lost", "here" if self._machine.is_local else "machine", str(why))
            _hand_on(said, log)
            ended(status)
            if status == 0:
                return None
            self._keep(drv.path, said)
            if stalled is not None:
                return stalled
            said.seek(max(0, said.tell() - _LOOKED_AT))
            return fault_of(said.read(), "build", status, self.where, drv.path)

    def _bounds(self) -> OfBuild:
        """The bounds of a build that begins now."""
        timeout, silent = bounds_of_builds(self._options, self._settings)
        some = SOME_BY_DAEMON if is_by_daemon(os.environ.get("NIX_REMOTE", "")) else SOME
        return OfBuild(self._daemon.progress, timeout, silent, some, self._is_there)

    def _keep(self, drv: str, said: IO[bytes]) -> None:
        """Keeps what was said of a build that didn't end well, and the last lines of its builder."""
        file = f"{self._logs}/{os.path.basename(drv)}"
        try:
            os.makedirs(self._logs, exist_ok=True)
            with open(f"{file}.log", "wb") as log:
                _hand_on(said, log.write)
            with open(f"{file}.last", "wb") as last:
                last.write(b"".join(self._daemon.builder_said))
        except OSError:
            pass

    async def references(self, outputs: Sequence[str]) -> List[List[str]]:
        """What each output refers to; Failed where one isn't valid."""
        found = []
        for path in outputs:
            info = await self._daemon.path_info(path)
            if info is None:
                raise Failed(1, f"{path} is gone from this store".encode())
            self._here.learn(info)
            found.append(info.references)
        return found

    async def close(self) -> None:
        await self._daemon.close()


def _hand_on(said: IO[bytes], write: Callable[[bytes], object]) -> None:
    """Hands on all of a file, whose end it is at again behind that."""
    said.seek(0)
    while True:
        part = said.read(1 << 16)
        if not part:
            return
        write(part)
