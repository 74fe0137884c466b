"""The copies and builds of a run over time, in the Trace Event Format: a process for each machine, a thread for each slot."""

import json
from typing import Dict, List, Mapping, Sequence

from .derivation import name_of
from .events import Note
from .park import Machine
from .timeline import Bar, Machines, bars


def _event(bar: Bar, end: int) -> Dict[str, object]:
    """A copy or a build that lasted to this time."""
    name = name_of(bar.derivation)
    if bar.kind == "copy":
        name = f"copy for {name}" if bar.derivation and bar.status == "0" else f"copy of {bar.paths} paths"
    times = {"ts": bar.begin * 1000, "dur": (end - bar.begin) * 1000}
    return {"ph": "X", "name": name, "pid": bar.machine, "tid": bar.slot, **times, "args": {"status": bar.status}}


def trace(parks: Sequence[Mapping[int, Machine]], notes: Sequence[Note]) -> str:
    """The text of trace.json, with what has ended; `parks` are the machines of each round."""
    events: List[Dict[str, object]] = []
    machines = Machines(parks)
    for number, uri in sorted(machines.uris.items()):
        names = {"name": f"machine {number}: {uri}"}
        events.append({"ph": "M", "name": "process_name", "pid": number, "args": names})
        for slot in sorted(machines.slots[number]):
            events.append({"ph": "M", "name": "thread_name", "pid": number, "tid": slot, "args": {"name": f"slot {slot}"}})
    for bar in bars(machines, notes):
        if bar.end is not None and bar.status and bar.kind != "valid":
            events.append(_event(bar, bar.end))
    return "[" + ",".join("\n" + json.dumps(event) for event in events) + "\n]\n"
