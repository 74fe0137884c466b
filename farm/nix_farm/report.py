"""How each derivation stands after all rounds, in the form of `nix-dispatch run --report`."""

from collections import Counter
from dataclasses import dataclass, field
from typing import Dict, List, Mapping, NamedTuple, Optional, Sequence, Set, Tuple

from .events import Note
from .history import Entry
from .park import Machine, Place

KINDS = ("waiting", "leased", "built", "failed", "cancelled")


class RoundText(NamedTuple):
    """What there is of a round: of each derivation of its bundle the path and the inputs, its history, and what waits in it
    for something that failed before."""

    drvs: Sequence[Tuple[str, Sequence[str]]]
    history: Sequence[Entry]
    left: Sequence[str]


@dataclass
class Standing:
    """How a derivation stands: `how` is how it failed, `below` what failed where it is cancelled for that, and `copied` the
    paths that were copied for its last lease."""

    status: str = "waiting"
    how: str = ""
    below: str = ""
    place: Optional[Place] = None
    copied: List[str] = field(default_factory=list)
    round: int = 0


@dataclass
class Times:
    """When the last build of a derivation began and ended, in milliseconds since 1970, and why it didn't end well."""

    begun: Optional[int] = None
    ended: Optional[int] = None
    cause: Optional[str] = None


class Turn(NamedTuple):
    """That a machine was drained or enabled: the round, the entry's kind, the machine's number in that round, and the
    derivation whose lease had ended last by then, "" where none had."""

    round: int
    kind: str
    machine: int
    behind: str


class Told:
    """What the events say: of each derivation its times, and why a machine was down in a round."""

    def __init__(self, notes: Sequence[Note]) -> None:
        self.times: Dict[str, Times] = {}
        self.down: Dict[Tuple[int, str], str] = {}
        number = 0
        for note in notes:
            kind = note.words[0]
            if kind == "round" and note.words[1].isdigit():
                number = int(note.words[1])
            elif kind == "no":
                self.down.setdefault((number, note.machine), note.cause)
            elif kind in ("begin", "valid", "end", "failed", "lost"):
                self._hear(note, self.times.setdefault(note.words[1], Times()))

    @staticmethod
    def _hear(note: Note, times: Times) -> None:
        kind = note.words[0]
        if kind == "begin":
            times.begun, times.ended, times.cause = note.at, None, None
        elif kind == "valid":
            times.begun, times.ended, times.cause = note.at, note.at, None
        elif kind == "end":
            times.ended = note.at
        else:
            times.cause = note.cause


class Report:
    """The state of all derivations behind so many rounds, in the order in which they came up."""

    def __init__(self, machines: Mapping[int, Machine], keep_going: bool) -> None:
        self.machines = machines
        self._keep_going = keep_going
        self.standing: Dict[str, Standing] = {}
        # by the first round that each is in
        self.inputs: Dict[str, Sequence[str]] = {}
        # those of the last round that are down, and which of these were drained
        self.down: Set[int] = set()
        self.drained: Set[int] = set()
        self.turns: List[Turn] = []

    def add_round(self, number: int, text: RoundText) -> None:
        """The next round, over those before it."""
        paths = [path for path, _ in text.drvs]
        now = _RoundState(paths)
        for entry in text.history:
            now.take(entry)
        self.down, self.drained = now.down, now.drained
        self.turns += [Turn(number, kind, machine, paths[last] if last >= 0 else "") for kind, machine, last in now.turns]
        for path, inputs in text.drvs:
            self.inputs.setdefault(path, inputs)
        for path in text.left:
            self.standing.setdefault(path, Standing("cancelled"))
        stay = {*paths, *text.left}
        for path, one in self.standing.items():
            # what is needed no longer has become valid meanwhile
            if path not in stay and one.status != "built":
                one.status, one.how = "built", "valid"
        self._cancel(text.drvs, now)
        for path, one in zip(paths, now.states):
            one.round = number
            self.standing[path] = one

    def _cancel(self, drvs: Sequence[Tuple[str, Sequence[str]]], now: "_RoundState") -> None:
        """What waits when another failed, or depends on one that did, is cancelled."""
        first = next((path for (path, _), one in zip(drvs, now.states) if one.status == "failed"), "")
        barred: Dict[str, str] = {}
        for (path, inputs), one in zip(drvs, now.states):
            below = next((barred[before] for before in inputs if barred.get(before)), "")
            if one.status == "waiting" and (below or (now.any_failed and not self._keep_going)):
                one.status, one.below, one.how = "cancelled", below or first, "depends" if below else "waited"
            if one.status == "failed" or below:
                barred[path] = below or path

    def counts(self) -> Dict[str, int]:
        found = Counter(one.status for one in self.standing.values())
        return {"total": len(self.standing), **{kind: found[kind] for kind in KINDS}}

    @property
    def is_all_built(self) -> bool:
        return all(one.status == "built" for one in self.standing.values())

    def text(self, rounds: int, interrupted: str) -> str:
        """The report, `interrupted` by a signal where that is named."""
        lines = [f"{kind} {number}" for kind, number in self.counts().items()]
        lines += [f"interrupted {interrupted}"] if interrupted else []
        lines += [f"rounds {rounds}"] if rounds > 1 else []
        taken = Counter(one.place.machine for one in self.standing.values() if one.status == "leased" and one.place)
        for number in sorted({0, *self.machines}):
            machine = self.machines.get(number)
            uri, jobs = (machine.uri, machine.jobs) if machine else ("local", 0)
            state = "down" if number in self.down else "up"
            lines.append(f"machine {number} {state} {taken[number]}/{jobs} {uri}")
        lines += [f"drv {at} {one.status} {path}" for at, (path, one) in enumerate(self.standing.items())]
        return "\n".join(lines) + "\n"


class _RoundState:
    """How the derivations of a bundle stand in the course of a history."""

    def __init__(self, paths: Sequence[str]) -> None:
        self.states = [Standing() for _ in paths]
        self.down: Set[int] = set()
        self.drained: Set[int] = set()
        # each turn's kind and machine, and the derivation that had ended last by then
        self.turns: List[Tuple[str, int, int]] = []
        self.any_failed = False
        self._last = -1

    def _turn(self, kind: str, machine: int) -> None:
        self.turns.append((kind, machine, self._last))
        for those in (self.down, self.drained):
            if kind == "drain":
                those.add(machine)
            else:
                those.discard(machine)

    def take(self, entry: Entry) -> None:
        kind = entry[0]
        if kind in ("drain", "enable"):
            self._turn(kind, int(entry[1]))
        if kind not in ("chosen", "started", "down", "built", "nobuilder", "failed"):
            return
        at = int(entry[1])
        one = self.states[at]
        if kind in ("built", "failed"):
            self._last = at
        if kind == "chosen":
            one.status, one.place = "leased", Place(int(entry[2]), int(entry[3]))
        elif kind == "started":
            one.copied = entry[2:]
        elif kind == "down":
            if one.place is not None:
                self.down.add(one.place.machine)
            one.status, one.place = "waiting", None
        elif kind == "built":
            one.status = "built"
        else:
            one.status, self.any_failed = "failed", True
            one.how = "nobuilder" if kind == "nobuilder" else " ".join(entry[2:4] if entry[2] == "status" else entry[2:3])
