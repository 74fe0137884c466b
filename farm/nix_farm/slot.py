"""The agent of a slot: reads its calls, and answers them.

| Call | Answer |
|---|---|
| `connect` | `yes` or `no` |
| `copy PATH ..` | `yes` or `no` |
| `build DRV OUT ..` | `built o REF .. o ..`, `failed C` or `lost` |
"""

import asyncio
from typing import Awaitable, List, Mapping, Optional, Sequence

from .again import Again
from .blame import Fault, printable
from .builds import Builds
from .chosen import Chosen
from .copies import Copies
from .damage import Damage
from .daemon import Failed
from .derivation import Derivation
from .events import Events
from .here import Here
from .machine import Connections
from .park import Place
from .pipe import Pipes
from .shared import SharedSlot

# The seconds for which the process of a slot is kept that has nothing to build.
_IDLE = 10.0


class Slot:
    """The agent of one slot."""

    def __init__(
        self,
        place: Place,
        connections: Connections,
        shared: Optional[SharedSlot],
        copies: Optional[Copies],
        builds: Builds,
        here: Here,
        damage: Damage,
        events: Events,
        drvs: Mapping[str, Derivation],
        chosen: Chosen,
    ) -> None:
        """`drvs` are the derivations of the round's bundle by their paths; there is nothing to copy by for this machine, and
        no slot that is shared with others unless that is asked for."""
        self.place = place
        self._connections = connections
        self._shared = shared
        self._copies = copies
        self._builds = builds
        self._here = here
        self._damage = damage
        self._chosen = chosen
        self._events = events
        self._drvs = drvs
        self._again = Again(connections, place.slot, connections.reconnect)
        # what a copy found this store to lack: the build behind it is lost for that
        self._owed: Optional[Fault] = None

    def _note(self, *words: object) -> None:
        self._events.note(self.place, *words)

    def _log(self, data: bytes) -> None:
        self._events.log(self.place, data)

    async def serve(self, pipes: Pipes) -> None:
        """Answers calls until it is called off."""
        while True:
            call = (await self._next(pipes)).split()
            await pipes.write_line(await self._answer(call[0] if call else "", call[1:]))

    async def _answer(self, call: str, words: Sequence[str]) -> str:
        """The answer to a call. ValueError where it is none."""
        if call == "connect":
            self._again = Again(self._connections, self.place.slot, self._connections.reconnect)
            return self._yes_or_no(await self._or_fault(self._connect()))
        if call == "copy":
            fault = await self._or_fault(self._copy(words))
            if fault is not None:
                await self._give_back()
            return self._yes_or_no(fault)
        if call == "build":
            answer = await self._build(words)
            await self._give_back()
            return answer
        raise ValueError(f"the call {call[:100]!r}")

    async def _connect(self) -> Optional[Fault]:
        fault = await self._connections.connect(self.place.slot, self._log)
        return fault or await self._take()

    async def _take(self) -> Optional[Fault]:
        """Holds one of the slots that others share: None, or why none can be held."""
        return None if self._shared is None else await self._shared.take(lambda: self._note("waits"))

    async def _give_back(self) -> None:
        if self._shared is not None:
            await self._shared.give_back()

    @staticmethod
    async def _or_fault(doing: Awaitable[Optional[Fault]]) -> Optional[Fault]:
        """What is done, or that this machine is to blame where it can't be, as where its disk is full."""
        try:
            return await doing
        except OSError as error:
            return Fault("no", "here", printable(str(error).encode(errors="replace")))

    async def _next(self, pipes: Pipes) -> str:
        """The next call. Where there is none for a while the process of the slot ends."""
        if self._builds.is_open:
            try:
                return await asyncio.wait_for(pipes.read_line(), _IDLE)
            except asyncio.TimeoutError:
                await self._builds.close()
        return await pipes.read_line()

    def _yes_or_no(self, fault: Optional[Fault]) -> str:
        if fault is None:
            return "yes"
        self._note("no", fault.who, fault.cause)
        return "no"

    async def _copy(self, paths: Sequence[str]) -> Optional[Fault]:
        """What this store lacks is kept as owed."""
        self._owed = None
        if self._copies is None or not paths:
            return None
        drv = self._chosen.of(self.place)
        self._note("copy", len(paths), drv)
        statuses: List[int] = []
        fault = await self._copies.copy(paths, self._log, statuses.append)
        while fault is not None and await self._goes_on(drv, fault):
            fault = await self._copies.copy(paths, self._log, statuses.append)
        self._note("copied", statuses[-1])
        if fault is not None and fault.who == "here":
            self._owed = fault
            return None
        if fault is not None:
            self._connections.is_up = False
        return fault

    async def _build(self, words: Sequence[str]) -> str:
        if len(words) < 2:
            return "lost"
        drv, outputs = words[0], words[1:]
        if self._owed is not None:
            return self._lose(drv, self._owed)
        try:
            return await self._built(drv, outputs)
        except Failed as failed:
            cause = printable(failed.said.strip().split(b"\n")[-1])
            return self._lose(drv, Fault("lost", "here", cause or "this store can't be asked"))
        except OSError as error:
            return self._lose(drv, Fault("lost", "here", printable(str(error).encode(errors="replace"))))

    async def _built(self, drv: str, outputs: Sequence[str]) -> str:
        """The answer to a build: what is valid already isn't built, but copied to the machine."""
        if await self._here.are_valid(outputs):
            self._note("valid", drv)
            fault = await self._copy(outputs) or self._owed
            if fault is not None:
                return self._lose(drv, fault)
        else:
            self._note("begin", drv)
            statuses: List[int] = []
            fault = await self._builds.build(self._drvs[drv], self._log, statuses.append)
            while fault is not None and await self._goes_on(drv, fault):
                fault = await self._builds.build(self._drvs[drv], self._log, statuses.append)
            self._note("end", drv, statuses[-1])
            if fault is not None:
                return self._unbuilt(drv, await self._blamed(drv, fault))
        references = await self._builds.references(outputs)
        return " ".join(["built", *(word for listed in references for word in ("o", *listed))])

    async def _goes_on(self, drv: str, fault: Fault) -> bool:
        """Whether a lease that was cut short goes on, since its machine answers again."""
        if not await self._again.goes_on(fault, self._log, lambda: self._note("cut", drv, fault.cause)):
            return False
        if await self._take() is not None:
            return False
        self._note("resumed", drv)
        return True

    async def _blamed(self, drv: str, fault: Fault) -> Fault:
        """Whose fault it is, once this store was looked at: Nix's hook copies what a machine has lost meanwhile."""
        if fault.answer != "lost" or fault.who != "machine":
            return fault
        one = self._drvs[drv]
        made = [path for before, _ in one.inputs if before in self._drvs for path in self._drvs[before].output_paths]
        cause = await self._damage.of_build([*one.sources, *made], fault.cause)
        return Fault("lost", "here", cause) if cause else fault

    def _unbuilt(self, drv: str, fault: Fault) -> str:
        if fault.answer == "lost":
            return self._lose(drv, fault)
        self._note("failed", drv, fault.answer.split()[-1], fault.who, fault.cause)
        return fault.answer

    def _lose(self, drv: str, fault: Fault) -> str:
        """A machine that is to blame is asked again before the next lease on it."""
        self._note("lost", drv, fault.who, fault.cause)
        if fault.who == "machine":
            self._connections.is_up = False
        return "lost"

    async def close(self) -> None:
        await self._give_back()
        await self._builds.close()
