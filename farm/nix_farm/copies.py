"""Copies to a machine.

What is small goes by a process that is kept open, by the NARs that this store gives; more is left to `nix copy`. A path
that this store lacks is no fault of the machine.
"""

from typing import Awaitable, Callable, List, Optional, Sequence, TypeVar

from .blame import TIMED_OUT, Fault, fault_of
from .bounds import Stalled, run_watched, stalls, watched
from .daemon import Failed, PathInfo
from .damage import Damage
from .here import Here
from .machine import Connection
from .park import Machine
from .process import Processes
from .settings import NIX

_T = TypeVar("_T")

# The most paths, and the most bytes of their NARs, that go by the process which is kept open.
FEW = 64
SMALL = 4 << 20
# The most paths that one command names.
NAMED = 1000
# How often a copy is tried: where two slots copy one path at once, Nix 2.8 lets one of the two copies fail.
TRIES = 3


def by_references(infos: Sequence[PathInfo]) -> List[PathInfo]:
    """Paths, each behind those of them that it refers to."""
    known = {info.path: info for info in infos}
    placed = set()
    order: List[PathInfo] = []
    for info in infos:
        stack = [(info, False)]
        while stack:
            one, is_behind = stack.pop()
            if is_behind:
                order.append(one)
            elif one.path not in placed:
                placed.add(one.path)
                stack.append((one, True))
                stack += [(known[path], False) for path in one.references if path in known and path not in placed]
    return order


class Copies:
    """Copies from this machine's store to a machine by one of its connections."""

    def __init__(
        self, processes: Processes, here: Here, damage: Damage, machine: Machine, connection: Connection, bound: int
    ) -> None:
        """`bound` is the seconds for which a copy may stand still."""
        self._bound = bound
        self._processes = processes
        self._here = here
        self._damage = damage
        self._machine = machine
        self._connection = connection

    async def copy(self, paths: Sequence[str], log: Callable[[bytes], None], ended: Callable[[int], None]) -> Optional[Fault]:
        """Copies paths, and no other, to the machine, which has what else they refer to; of more than a thousand each
        part goes with what it refers to. None, or whose fault it is; `ended` is told Nix's status. Before a machine is to
        blame this store is looked at."""
        status, fault = 1, self._known(paths)
        for _ in range(0 if fault is not None else TRIES):
            try:
                status, fault = await self._copy_once(paths, log)
            except Stalled as why:
                status, fault = TIMED_OUT, Fault("no", "machine", str(why))
                break
            if fault is None:
                break
            cause = "" if "is not valid" in fault.cause else await self._damage.of(paths)
            if cause:
                fault = Fault("no", "here", cause)
            if fault.who == "here":
                break
        ended(status)
        return fault

    def _known(self, paths: Sequence[str]) -> Optional[Fault]:
        """What is known by now to be damaged here isn't tried."""
        cause = self._damage.known(paths)
        return Fault("no", "here", cause) if cause else None

    async def _copy_once(self, paths: Sequence[str], log: Callable[[bytes], None]) -> "tuple[int, Optional[Fault]]":
        if len(paths) <= FEW:
            try:
                infos = await self._here.infos(paths)
            except Failed as failed:
                log(failed.said)
                return failed.status, fault_of(failed.said, "copy", failed.status, "here")._replace(who="here")
            if sum(info.size for info in infos) <= SMALL:
                return await self._by_link(infos, log)
        parts = [paths[at : at + NAMED] for at in range(0, len(paths), NAMED)]
        for part in parts:
            alone = ["--no-recursive"] if len(parts) == 1 else []
            words = [*NIX, "copy", "--no-check-sigs", *alone, "--to", self._machine.keyed, *part]
            ended = await run_watched(self._processes, words, self._connection.env, self._bound)
            log(ended.said + ended.out)
            if ended.status != 0:
                return ended.status, fault_of(ended.said + ended.out, "copy", ended.status, "there")
        return 0, None

    async def _by_link(self, infos: Sequence[PathInfo], log: Callable[[bytes], None]) -> "tuple[int, Optional[Fault]]":
        link = self._connection.link
        async with self._connection.lock:
            try:
                there = await self._moving(link.valid_paths([info.path for info in infos]))
                nars = [(info, await self._nar(info)) for info in by_references(infos) if info.path not in there]
                for info, nar in nars:
                    await self._moving(link.add(info, nar))
            except Stalled:
                await link.close()
                raise
            except _NotHere as error:
                log(error.failed.said)
                return error.failed.status, fault_of(error.failed.said, "copy", error.failed.status, "here")._replace(who="here")
            except Failed as failed:
                await link.close()
                said = failed.said + (b"" if link.said() in failed.said else link.said())
                log(said)
                return failed.status, fault_of(said, "copy", failed.status, "there")
        return 0, None

    async def _moving(self, doing: "Awaitable[_T]") -> _T:
        """What the machine is asked for; Stalled where nothing moves any more."""
        return await watched(doing, stalls(self._connection.link.progress, self._bound))

    async def _nar(self, info: PathInfo) -> bytes:
        """The NAR of a path; _NotHere where this store refuses it. That takes its time, which isn't the machine's."""
        try:
            return await self._here.nar(info)
        except Failed as failed:
            raise _NotHere(failed) from failed


class _NotHere(Exception):
    """What this store refuses to give."""

    def __init__(self, failed: Failed) -> None:
        super().__init__(str(failed))
        self.failed = failed
