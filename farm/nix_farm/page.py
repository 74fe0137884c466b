"""The page of a run, `index.html`: one file that asks for nothing else.

Its data are the objects of report.json, and the copies, builds and outages of the events. They stand in the file as JSON,
and its script puts them into elements as text alone, so nothing in them can become markup.
"""

import base64
import hashlib
import json
import os
import urllib.parse
from dataclasses import dataclass
from typing import Dict, List, Mapping, Optional, Sequence

from .chain import longest_chain
from .events import Note
from .logs import log_end
from .outages import outages
from .report import Report
from .report_json import Sources, derivations
from .timeline import Bar, Machines, bars

_TEMPLATE = os.path.join(os.path.dirname(os.path.abspath(__file__)), "page.html")
# So many failures have the end of their log on the page: the others name it.
_WITH_LOG = 100


@dataclass
class Stand:
    """How far a run is: the rounds so far, and the time in milliseconds since 1970.

    status       None while it goes on
    interrupted  the signal's name, where it was interrupted
    every        the seconds after which the page is made anew, 0 where it isn't
    """

    rounds: int
    now: int
    status: Optional[int] = None
    interrupted: str = ""
    every: float = 0.0


class _Data:
    """What stands on the page. A derivation is its place in the list of all, and a machine its place in the list of these."""

    def __init__(self, report: Report, sources: Sources, notes: Sequence[Note], stand: Stand) -> None:
        self._report = report
        self._sources = sources
        self._notes = notes
        self._stand = stand
        self._told = derivations(report, sources)
        self._uris: Dict[str, int] = {}
        self._place = {path: at for at, path in enumerate(report.standing)}
        self._machines = Machines(sources.parks)
        self._bars = bars(self._machines, notes)
        if stand.status is not None:
            self._break_off(notes[-1].at if notes else stand.now)
        self._of_machine: Dict[int, List[Bar]] = {}
        for bar in self._bars:
            self._of_machine.setdefault(bar.machine, []).append(bar)
        self._outages = outages(self._machines, notes, report.turns, sources.told.times)
        slots = {(bar.machine, bar.slot) for bar in self._bars}
        slots.update((machine, slot) for machine, those in self._machines.slots.items() for slot in those)
        self._rows = sorted(slots)
        self._numbers = sorted({*self._machines.uris, *(machine for machine, _ in self._rows)})

    def _break_off(self, at: int) -> None:
        """Ends what was open when the run ended."""
        for bar in self._bars:
            if bar.end is None:
                bar.finish(at, "", "broken")

    def all(self) -> Dict[str, object]:
        stand, uris = self._stand, [self._machines.uris.get(number, "") for number in self._numbers]
        at = {number: place for place, number in enumerate(self._numbers)}
        rows = {row: place for place, row in enumerate(self._rows)}
        return {
            "folder": self._sources.out,
            "now": stand.now,
            "every": round(stand.every, 1),
            "status": stand.status,
            "interrupted": stand.interrupted,
            "rounds": stand.rounds,
            "counts": self._report.counts(),
            "machines": [self._machine(number, uri) for number, uri in zip(self._numbers, uris)],
            "rows": [[at[machine], slot] for machine, slot in self._rows],
            "marks": [[note.at, *note.words[:2]] for note in self._notes if note.words[0] in ("round", "again", "list")],
            "bars": [self._bar(bar, rows[bar.machine, bar.slot], size) for bar, size in zip(self._bars, self._sizes())],
            "outages": [[at[one.machine], one.kind, one.begin, one.end, one.cause] for one in self._outages],
            "derivations": [self._derivation(one) for one in self._told],
            "uris": list(self._uris),
            "failures": self._failures(),
            "chain": self._chain(),
        }

    def _bar(self, bar: Bar, row: int, size: Optional[int]) -> List[object]:
        place = self._place.get(bar.derivation, -1)
        return [row, bar.kind, bar.how, bar.begin, bar.end, place, bar.paths, size]

    def _sizes(self) -> List[Optional[int]]:
        """The bytes of each bar's copy: they are known of the last lease of a derivation."""
        sizes: List[Optional[int]] = [None] * len(self._bars)
        known = set()
        for at in range(len(self._bars) - 1, -1, -1):
            bar = self._bars[at]
            place = self._place.get(bar.derivation, -1)
            if bar.kind == "copy" and place >= 0 and place not in known:
                known.add(place)
                is_last = len(self._report.standing[bar.derivation].copied) == bar.paths
                size = self._told[place]["bytes"]
                sizes[at] = size if is_last and isinstance(size, int) else None
        return sizes

    def _machine(self, number: int, uri: str) -> Dict[str, object]:
        """What a machine is and did; of two with one URI each has its own."""
        own = self._of_machine.get(number, [])
        builds = [bar for bar in own if bar.kind == "build"]
        end = self._stand.now
        return {
            "uri": uri,
            "state": self._state(number),
            "slots": len(self._machines.slots.get(number, ())),
            "built": len({bar.derivation for bar in own if bar.kind != "copy" and bar.how == "ok"}),
            "failed": sum(bar.how == "failed" for bar in builds),
            "lost": sum(bar.how in ("lost", "broken") for bar in builds),
            "copies": sum(bar.kind == "copy" and bar.how == "ok" for bar in own),
            "busy": sum((end if bar.end is None else bar.end) - bar.begin for bar in builds),
        }

    def _state(self, number: int) -> str:
        """How a machine stands in the last round."""
        last = len(self._sources.parks)
        now = [one for one in self._sources.parks[-1] if self._machines.number(last, one) == number] if last else []
        if not now:
            return "not in the list"
        lasting = {one.kind for one in self._outages if one.machine == number and one.end is None}
        if "drained" in lasting or now[0] in self._report.drained:
            return "drained"
        return "down" if "down" in lasting or now[0] in self._report.down else "up"

    def _derivation(self, one: Mapping[str, object]) -> List[object]:
        """The object of a derivation, whose machine is the place of its URI in a list."""
        uri = one["machine"]
        machine = self._uris.setdefault(uri, len(self._uris)) if isinstance(uri, str) else None
        head = [one["derivation"], one["status"], one["round"], machine]
        return [*head, *(one[name] for name in ("slot", "begin", "end", "bytes")), self._link(one["log"]), one["cause"]]

    def _link(self, log: object) -> Optional[str]:
        """A log as it is named from the page, wherever the folder is moved to."""
        start = f"{self._sources.out}/"
        return urllib.parse.quote(log[len(start) :], errors="replace") if isinstance(log, str) and log.startswith(start) else None

    def _failures(self) -> List[Dict[str, object]]:
        """Each that failed, with how many are cancelled since they depend on it, and the end of its log."""
        behind: Dict[str, int] = {}
        for standing in self._report.standing.values():
            if standing.status == "cancelled" and standing.below:
                behind[standing.below] = behind.get(standing.below, 0) + 1
        found: List[Dict[str, object]] = []
        for place, (path, standing) in enumerate(self._report.standing.items()):
            if standing.status == "failed":
                lines = log_end(self._told[place]["log"]) if len(found) < _WITH_LOG else []
                found.append({"derivation": place, "how": standing.how, "behind": behind.get(path, 0), "lines": lines})
        return found

    def _chain(self) -> List[int]:
        times = {}
        for path, one in zip(self._report.standing, self._told):
            begin, end = one["begin"], one["end"]
            if isinstance(begin, int):
                times[path] = (begin, end if isinstance(end, int) else self._stand.now)
        return [self._place[path] for path in longest_chain(self._report.inputs.items(), times) if path in self._place]


def page_data(report: Report, sources: Sources, notes: Sequence[Note], stand: Stand) -> Dict[str, object]:
    """What stands on the page of a run."""
    return _Data(report, sources, notes, stand).all()


def page_text(data: Mapping[str, object]) -> str:
    """The text of index.html with these data. Its one script is named by its hash, so that a browser runs no other."""
    with open(_TEMPLATE, encoding="utf-8") as template:
        before, _, behind = template.read().partition("@DATA@")
    script = behind.partition("<script>")[2].partition("</script>")[0]
    digest = base64.b64encode(hashlib.sha256(script.encode()).digest()).decode()
    told = json.dumps(data, separators=(",", ":")).replace("<", "\\u003c")
    return before.replace("@SCRIPT@", f"'sha256-{digest}'") + told + behind
