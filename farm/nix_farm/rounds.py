"""Rounds: the program on the agents' pipes, and whom to shut out behind one."""

import asyncio
import os
import resource
import signal
from typing import Callable, Dict, List, Optional, Sequence

from .bounds import call_off
from .events import Note
from .park import Place
from .pipe import Pipes
from .process import Processes, status_of
from .slot import Slot

# The descriptors that a slot takes at most, and those that are open besides.
_OF_SLOT = 6
_OTHERS = 64


def allow_descriptors(slots: int) -> None:
    """Allows this process as many open files as so many slots take, where it may have them."""
    soft, hard = resource.getrlimit(resource.RLIMIT_NOFILE)
    wanted = slots * _OF_SLOT + _OTHERS
    if soft != resource.RLIM_INFINITY and soft < wanted:
        most = wanted if hard == resource.RLIM_INFINITY else min(wanted, hard)
        resource.setrlimit(resource.RLIMIT_NOFILE, (max(soft, most), hard))


def _may_hand(slots: int) -> bool:
    """Whether the program may have the ends of all pipes besides those that it opens."""
    soft, _ = resource.getrlimit(resource.RLIMIT_NOFILE)
    return soft == resource.RLIM_INFINITY or slots * 4 + _OTHERS <= soft


class Running:
    """The run of a round: an agent for each slot, and the program."""

    def __init__(self, processes: Processes, folder: str, started: Callable[[int], None]) -> None:
        """`folder` is the one of the pipes, and `started` is told the number of the program's process."""
        self._processes = processes
        self._folder = folder
        self._started = started
        self._program: Optional[asyncio.subprocess.Process] = None
        self._is_called_off = False

    def call_off(self) -> None:
        """Ends the program at once: its journal holds what it has begun, and what it knows to have ended."""
        self._is_called_off = True
        if self._program is not None and self._program.returncode is None:
            self._program.send_signal(signal.SIGKILL)

    async def run(self, words: Sequence[str], places: Sequence[Place], slot_of: Callable[[Place], Slot]) -> int:
        """The status of the program over these slots; OSError where the pipes or the program can't be made."""
        for name in os.listdir(self._folder):
            os.unlink(f"{self._folder}/{name}")
        pipes: List[Pipes] = []
        slots: List[Slot] = []
        tasks: List["asyncio.Task[None]"] = []
        try:
            for place in places:
                pipes.append(Pipes(self._folder, str(place)))
                slots.append(slot_of(place))
            handed = [one for pair in pipes for one in pair.descriptors] if _may_hand(len(places)) else []
            if self._is_called_off:
                return 0
            self._program = await self._processes.start(words, stderr=2, handed=handed, ignores_pipe=True)
            self._started(self._program.pid)
            tasks = [asyncio.ensure_future(slot.serve(pair)) for slot, pair in zip(slots, pipes)]
            return await self._until_end(tasks)
        finally:
            await call_off(tasks)
            await asyncio.gather(*(slot.close() for slot in slots))
            for pair in pipes:
                pair.close()

    async def _until_end(self, tasks: Sequence["asyncio.Task[None]"]) -> int:
        """Waits for the program's end; an agent that ends before it is a fault, and ends it."""
        program = self._program
        assert program is not None
        if self._is_called_off:
            self.call_off()
        ending = asyncio.ensure_future(program.wait())
        await asyncio.wait([ending, *tasks], return_when=asyncio.FIRST_COMPLETED)
        if not ending.done():
            self.call_off()
        await ending
        self._processes.forget(program)
        for task in tasks:
            if task.done():
                task.result()
        return status_of(program.returncode or 0)


def to_blame_twice(notes: Sequence[Note], before: int) -> Dict[int, str]:
    """The machines that were to blame in two rounds before this one, and for what; of another park nothing counts."""
    times: Dict[str, int] = {}
    causes: Dict[str, List[str]] = {}
    once = set()
    for note in notes:
        kind = note.words[0]
        if kind == "round":
            if int(note.words[1]) >= before:
                break
            once.clear()
        if kind == "list":
            times.clear()
            causes.clear()
        who = {"no": 1, "lost": 2}.get(kind, 0)
        if who and note.words[who] == "machine" and note.machine not in once:
            once.add(note.machine)
            times[note.machine] = times.get(note.machine, 0) + 1
            causes[note.machine] = [note.cause]
    return {int(machine): causes[machine][0] for machine, count in times.items() if count > 1}
