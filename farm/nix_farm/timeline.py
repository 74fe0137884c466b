"""The copies and builds of a run over time, as its events tell them."""

from collections import Counter
from dataclasses import dataclass
from typing import Dict, List, Mapping, Optional, Sequence, Set, Tuple

from .events import Note
from .park import Machine


@dataclass
class Bar:
    """A copy or a build on a slot, in milliseconds since 1970.

    machine     the number that the machine has over all rounds
    kind        `copy`, `build`, or `valid` for what was found built already
    derivation  its path, or "" for a copy of which it isn't known
    end         None while it goes on
    status      the status that it ended with, as a word; "" while it goes on
    how         `running`, `ok`, `failed`, `lost`, or `broken` where the run was ended before it
    paths       how many paths are copied
    """

    machine: int
    slot: int
    kind: str
    derivation: str
    begin: int
    end: Optional[int] = None
    status: str = ""
    how: str = "running"
    paths: int = 0

    def finish(self, at: int, status: str, how: str) -> None:
        self.end, self.status, self.how = at, status, how


class Machines:
    """The machines of all rounds: one that comes again, also under another number, keeps the one that it had first."""

    def __init__(self, parks: Sequence[Mapping[int, Machine]]) -> None:
        """`parks` are the machines of each round by their numbers."""
        self.uris: Dict[int, str] = {}
        self.slots: Dict[int, Set[int]] = {}
        self._number: Dict[Tuple[int, int], int] = {}
        known: Dict[Tuple[str, int], int] = {}
        for at, machines in enumerate(parks, 1):
            before: "Counter[str]" = Counter()
            for number, machine in sorted(machines.items()):
                one = (machine.uri, before[machine.uri])
                before[machine.uri] += 1
                if one not in known:
                    known[one] = number if number not in self.uris else max(self.uris) + 1
                place = self._number[at, number] = known[one]
                self.uris[place] = machine.uri
                self.slots.setdefault(place, set()).update(machine.slots)

    def number(self, at: int, number: int) -> int:
        """The number that a machine of a round has over all rounds."""
        return self._number.get((at, number), number)


class _Lane:
    """A slot: what it does, and what it did last."""

    def __init__(self, machine: int, slot: int) -> None:
        self.machine = machine
        self.slot = slot
        self.open: Optional[Bar] = None
        # a copy that went well, and of which it isn't known yet what it was for
        self.copied: Optional[Bar] = None
        self.built: Optional[Bar] = None

    def take(self, note: Note) -> Optional[Bar]:
        """The bar that a note begins."""
        kind, words = note.words[0], note.words[1:]
        if kind == "copy":
            return self._begin("copy", words[1] if len(words) > 1 and words[1] != "-" else "", note.at, words[0])
        if kind in ("begin", "valid"):
            if self.copied is not None:
                self.copied.derivation, self.copied = words[0], None
            bar = self._begin("build" if kind == "begin" else kind, words[0], note.at)
            if kind == "valid":
                self._end(note.at, "0")
            return bar
        if kind in ("copied", "end"):
            self._end(note.at, words[-1])
        elif kind in ("failed", "lost") and self.built is not None and self.built.derivation == words[0]:
            self.built.how = kind
        return None

    def _begin(self, kind: str, derivation: str, at: int, paths: str = "") -> Bar:
        self.break_off(at)
        self.open = Bar(self.machine, self.slot, kind, derivation, at, paths=int(paths) if paths.isdigit() else 0)
        self.copied = self.built = None
        return self.open

    def _end(self, at: int, status: str) -> None:
        bar, self.open = self.open, None
        if bar is None:
            return
        bar.finish(at, status, "ok" if status == "0" else "failed")
        if bar.kind != "copy":
            self.built = bar
        elif status == "0" and not bar.derivation:
            self.copied = bar

    def break_off(self, at: int) -> None:
        """Ends what is open as of this time, since its end will never be noted."""
        if self.open is not None:
            self.open.finish(at, "", "broken")
        self.open = self.copied = self.built = None


def bars(machines: Machines, notes: Sequence[Note]) -> List[Bar]:
    """The copies and builds in the order in which they began; those without an end go on where the run does."""
    found: List[Bar] = []
    lanes: Dict[Tuple[int, str], _Lane] = {}
    at, last = 1, 0
    for note in notes:
        kind = note.words[0]
        if kind in ("round", "again"):
            for lane in lanes.values():
                lane.break_off(last)
            at = int(note.words[1]) if note.words[1].isdigit() else at
        elif note.machine.isdigit() and note.slot.isdigit():
            machine = machines.number(at, int(note.machine))
            bar = lanes.setdefault((machine, note.slot), _Lane(machine, int(note.slot))).take(note)
            if bar is not None:
                found.append(bar)
        last = note.at
    return found
