"""The connections of a machine: asked once, up or down, and whose fault that is."""

import asyncio
import os
import random
import stat
import time
from typing import Callable, Dict, Mapping, Optional, Tuple

from . import daemon
from .blame import Fault, fault_of, refuses_user
from .park import Machine
from .process import Ended, Processes
from .settings import NIX

# The slots that one ssh connection serves: a stock sshd takes ten sessions on each, of which one is for copies.
SLOTS_OF_CONNECTION = 8
# The same where each slot also holds one that is shared with others.
SLOTS_WITH_LOCKS = 4
# How often a machine is asked that refuses a connection.
TRIES = 6
# How often one is asked of which nothing is heard, and for how many seconds an answer of it holds, and one that didn't come.
ASKS = 2
HOLDS = 60.0
HOLDS_NOT = 30.0
# The seconds for which an answer that didn't come holds where a machine is asked again, and the longest wait between two.
_PAUSE = 3.0
_LONGEST = 10.0
# A path that any store may be asked for.
_ANY = "/nix/store/00000000000000000000000000000000-nothing"


class Connection:
    """What eight slots of a machine share: an ssh connection where it is behind ssh, and a process that copies to it."""

    def __init__(self, machine: Machine, number: int, processes: Processes, folder: str, bound: int) -> None:
        self.control = f"{folder}/c.{machine.number}.{number}"
        self._is_remote = machine.is_remote
        words = f"-o ConnectTimeout={bound} -o ServerAliveInterval={bound} -o ServerAliveCountMax=3"
        plain = os.environ.get("NIX_SSHOPTS", "")
        self.env: Mapping[str, str] = {**os.environ, "NIX_SSHOPTS": f"{plain} {words} -o ControlPath={self.control}"}
        there = {**self.env, "NIX_REMOTE": machine.keyed}
        self.link = daemon.Daemon(processes, folder, there, patience=None)
        # who copies by it
        self.lock = asyncio.Lock()

    @property
    def master_env(self) -> Mapping[str, str]:
        """The variables of the command that makes the connection; no other one does."""
        words = self.env["NIX_SSHOPTS"] + " -o ControlMaster=auto -o ControlPersist=600"
        return {**self.env, "NIX_SSHOPTS": words}

    @property
    def is_there(self) -> bool:
        """Whether there is one that the slots may share."""
        if not self._is_remote:
            return True
        try:
            return stat.S_ISSOCK(os.stat(self.control).st_mode)
        except OSError:
            return False


class Connections:
    """The connections of one machine, and what it has answered in this round."""

    def __init__(self, machine: Machine, processes: Processes, folder: str, bound: int, reconnect: int, slots: int) -> None:
        """`bound` is the seconds that it has to answer, and `reconnect` those for which one is asked again that was there; so
        many slots share a connection."""
        self.reconnect = reconnect
        self._slots = slots
        self.machine = machine
        self._processes = processes
        self._folder = folder
        self._bound = bound
        self._groups: Dict[int, Connection] = {}
        self._lock = asyncio.Lock()
        self.is_up = False
        # whether it has answered in this round, and when it last didn't, by the monotonic clock
        self._was_up = False
        self._failed_at = -_PAUSE
        self._asking = asyncio.Lock()
        self._is_doubted = False
        # when its Nix was asked last, by the monotonic clock, and whether it answered
        self._asked: Tuple[float, bool] = (-HOLDS, False)
        # why it has refused in this round, and why it gets nothing more in any
        self._refused: Optional[Fault] = None
        self.shut_out = ""

    def of_slot(self, slot: int) -> Connection:
        group = slot // self._slots
        if group not in self._groups:
            self._groups[group] = Connection(self.machine, group, self._processes, self._folder, self._bound)
        return self._groups[group]

    def begin_round(self) -> None:
        """In each round it is asked anew."""
        self.is_up = self._was_up = False
        self._refused = None

    def _answers(self, connection: Connection) -> bool:
        return self.is_up and (self.machine.is_left_to_daemon or connection.is_there)

    async def connect(self, slot: int, log: Callable[[bytes], None]) -> Optional[Fault]:
        """Whether the machine answers: None, or whose fault it is. Who is first asks, the others take over what it heard."""
        if self.machine.is_local:
            return None
        if self.shut_out:
            return Fault("no", "machine", self.shut_out)
        connection = self.of_slot(slot)
        if self._answers(connection):
            return None
        if self._was_up and self._refused is None and self.reconnect > 0:
            await self.again(slot, time.monotonic() + self.reconnect, log)
        async with self._lock:
            if self._refused is None and not self._answers(connection):
                self._refused = await self._ask(connection, log)
                self.is_up = self._refused is None
                self._was_up = self._was_up or self.is_up
            return self._refused

    async def again(self, slot: int, until: float, log: Callable[[bytes], None]) -> bool:
        """Whether a machine that was there answers again, until a time of the monotonic clock; else it gets nothing more in
        this round. One slot asks at a time, and the others take over what it hears."""
        connection, wait = self.of_slot(slot), 1.0
        while True:
            async with self._lock:
                if not self._answers(connection) and time.monotonic() - self._failed_at > _PAUSE:
                    ended = await self._ping(connection)
                    log(ended.said + ended.out)
                    self.is_up = self._is_yes(ended) and await self._asks_nix(connection)
                    if not self.is_up:
                        self._failed_at = time.monotonic()
                if self._answers(connection):
                    self._refused = None
                    return True
            if time.monotonic() + wait > until:
                self._refused = self._refused or Fault("no", "machine", "it was there in this round and doesn't answer any more")
                return False
            await asyncio.sleep(wait * (0.75 + 0.5 * random.random()))
            wait = min(2 * wait, _LONGEST)

    def _is_yes(self, ended: Ended) -> bool:
        """Whether an answer says that the machine is there."""
        return ended.status == 0 or (self.machine.is_left_to_daemon and refuses_user(ended.said))

    async def _ask(self, connection: Connection, log: Callable[[bytes], None]) -> Optional[Fault]:
        """Asks by a new connection. One that is refused is asked again after waits that grow and are uneven."""
        tries = 0
        while True:
            ended = await self._ping(connection)
            log(ended.said + ended.out)
            if self._is_yes(ended):
                return await self._doubt(connection)
            fault = fault_of(ended.said + ended.out, "connect", ended.status, "there")
            tries += 1
            if fault.answer != "again" or tries >= TRIES:
                return fault._replace(answer="no")
            await asyncio.sleep(2**tries * (0.1 + 0.2 * random.random()))

    async def _doubt(self, connection: Connection) -> Optional[Fault]:
        """A machine whose Nix didn't answer once has to answer by it, and not by its sshd alone."""
        if self._is_doubted and not await self._asks_nix(connection):
            return Fault("no", "machine", "its sshd answers, and its Nix doesn't")
        self._is_doubted = False
        return None

    async def _ping(self, connection: Connection) -> Ended:
        words = [*NIX, "store", "ping", "--store", self.machine.keyed]
        return await self._processes.run(words, connection.master_env, bound=self._bound * 3)

    async def is_there(self, slot: int) -> bool:
        """Whether the machine's Nix answers, which is asked twice; who asks a moment later takes over what was heard."""
        async with self._asking:
            at, has_answered = self._asked
            if time.monotonic() - at < (HOLDS if has_answered else HOLDS_NOT):
                return has_answered
            for _ in range(ASKS):
                has_answered = await self._asks_nix(self.of_slot(slot))
                if has_answered:
                    break
            self._asked = (time.monotonic(), has_answered)
            self._is_doubted = not has_answered
            return has_answered

    async def _asks_nix(self, connection: Connection) -> bool:
        """Asks for a path, which the store itself has to answer: sshd and a shell may live on without it."""
        asked = daemon.Daemon(self._processes, self._folder, {**connection.env, "NIX_REMOTE": self.machine.keyed})
        try:
            await asyncio.wait_for(asked.valid_paths([_ANY]), self._bound * 3)
        except asyncio.TimeoutError:
            return False
        except daemon.Failed as failed:
            return self.machine.is_left_to_daemon and refuses_user(failed.said + asked.said())
        finally:
            await asked.close()
        return True

    async def close(self) -> None:
        """Ends what copies to it."""
        for connection in self._groups.values():
            await connection.link.close()
