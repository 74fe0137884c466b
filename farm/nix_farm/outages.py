"""When machines of a run were down or drained, and when a lease on one was cut short."""

from dataclasses import dataclass
from typing import Dict, List, Mapping, Optional, Sequence, Tuple

from .events import Note
from .report import Times, Turn
from .timeline import Machines


KINDS = ("down", "drained", "cut")


@dataclass
class Outage:
    """A time in which a machine got no leases, or a lease of it stood still, in milliseconds since 1970.

    machine  the number that the machine has over all rounds
    kind     `down`, `drained`, or `cut`, which is of one slot
    end      None where it lasted to the end
    """

    machine: int
    kind: str
    begin: int
    end: Optional[int]
    cause: str


class _Outages:
    """Those that are open, by machine and kind, and for a cut also by slot."""

    def __init__(self) -> None:
        self.found: List[Outage] = []
        self._open: Dict[Tuple[int, str, str], Outage] = {}

    def begin(self, machine: int, kind: str, at: int, cause: str, slot: str = "") -> None:
        """Begins one, unless the machine has such a one."""
        if (machine, kind, slot) not in self._open:
            one = self._open[machine, kind, slot] = Outage(machine, kind, at, None, cause)
            self.found.append(one)

    def end(self, machine: int, kind: str, at: int, slot: str = "") -> None:
        one = self._open.pop((machine, kind, slot), None)
        if one is not None:
            one.end = max(at, one.begin)

    def end_all(self, at: int, kinds: Sequence[str]) -> None:
        for machine, kind, slot in list(self._open):
            if kind in kinds:
                self.end(machine, kind, at, slot)


def _turns_by_time(turns: Sequence[Turn], times: Mapping[str, Times], begun: Mapping[int, int]) -> List[Tuple[int, Turn]]:
    """The turns of machines, each at the end of the lease that had ended last by then: a history has no times."""
    found = []
    for turn in turns:
        ended = times.get(turn.behind, Times()).ended
        found.append((ended if ended is not None else begun.get(turn.round, 0), turn))
    return sorted(found, key=lambda one: one[0])


def outages(machines: Machines, notes: Sequence[Note], turns: Sequence[Turn], times: Mapping[str, Times]) -> List[Outage]:
    """All of them in the order in which they began. A machine that is down stays so until its round ends, or it is enabled."""
    begun = {int(note.words[1]): note.at for note in reversed(notes) if note.words[0] == "round" and note.words[1].isdigit()}
    left = _turns_by_time(turns, times, begun)
    found = _Outages()
    number = 1
    for note in notes:
        while left and left[0][0] <= note.at:
            _turn(found, machines, *left.pop(0))
        kind = note.words[0]
        if kind in ("round", "again", "list"):
            # a round that is gone on with has its machines as they were
            found.end_all(note.at, ["cut"] if kind == "again" else KINDS)
            number = int(note.words[1]) if kind != "list" and note.words[1].isdigit() else number
        elif note.machine.isdigit():
            _hear(found, machines.number(number, int(note.machine)), note)
    for at, turn in left:
        _turn(found, machines, at, turn)
    return sorted(found.found, key=lambda one: one.begin)


def _turn(found: _Outages, machines: Machines, at: int, turn: Turn) -> None:
    machine = machines.number(turn.round, turn.machine)
    if turn.kind == "drain":
        found.begin(machine, "drained", at, "it was drained")
        return
    for kind in ("down", "drained"):
        found.end(machine, kind, at)


def _hear(found: _Outages, machine: int, note: Note) -> None:
    kind = note.words[0]
    if kind == "no":
        found.begin(machine, "down", note.at, note.cause)
    elif kind == "cut":
        found.begin(machine, "cut", note.at, note.cause, note.slot)
    elif kind in ("resumed", "copied", "end"):
        found.end(machine, "cut", note.at, note.slot)
