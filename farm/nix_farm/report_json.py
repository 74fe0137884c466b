"""The report as JSON; docs/FARM.md has the form."""

import json
import os
from typing import Dict, List, Mapping, Optional, Sequence

from .park import Machine
from .report import Report, Standing, Times, Told


class Sources:
    """What a report is told from, besides the histories: the events, sizes as NAR in bytes, why no machine may build
    something, and the folder of the run."""

    def __init__(self, told: Told, sizes: Mapping[str, int], nobuilder: Mapping[str, str], out: str) -> None:
        self.told = told
        self.sizes = sizes
        self.nobuilder = nobuilder
        self.out = out
        # the machines of each round by their numbers
        self.parks: Sequence[Mapping[int, Machine]] = ()

    def why(self, path: str, one: Standing) -> Optional[str]:
        """Why a derivation isn't built."""
        if one.how == "nobuilder":
            return self.nobuilder.get(path, "each machine that may build it is down")
        if one.how == "references":
            return "it refers to what it may not refer to"
        if one.how == "memory":
            return "the dispatcher had no memory for the lease"
        if one.status == "cancelled":
            if one.how == "depends":
                return f"it depends on {one.below}, which failed"
            return f"it waited when {one.below} failed" if one.below else "it depends on one that failed"
        if one.status != "failed":
            return None
        cause = self._times(path).cause
        if cause is None and one.how == "lost" and one.place is not None:
            # a lease that was started when all was killed, and whose machine isn't reached behind that
            cause = self.told.down.get((one.round, str(one.place.machine)))
        return cause if cause is not None else "the agent is gone"

    def _times(self, path: str) -> Times:
        return self.told.times.get(path, Times())

    def _bytes(self, paths: Sequence[str]) -> Optional[int]:
        sizes = [self.sizes.get(path) for path in paths]
        return None if None in sizes else sum(size for size in sizes if size is not None)

    def _log(self, path: str, one: Standing) -> Optional[str]:
        if one.status == "failed" and one.how != "nobuilder" and self._times(path).cause is not None:
            kept = f"{self.out}/logs/{os.path.basename(path)}.log"
            if os.path.exists(kept) and os.path.getsize(kept) > 0:
                return kept
        return None if one.place is None else f"{self.out}/{one.place}.log"

    def _uri(self, one: Standing) -> Optional[str]:
        """The URI of the machine of its last lease."""
        if one.place is None:
            return None
        machine = self.parks[one.round - 1].get(one.place.machine) if 0 < one.round <= len(self.parks) else None
        return "" if machine is None else machine.uri

    def derivation(self, path: str, one: Standing) -> Dict[str, object]:
        """The object of a derivation."""
        is_timed = one.place is not None and one.status in ("built", "failed", "leased")
        times = self._times(path) if is_timed else Times()
        return {
            "derivation": path,
            "status": "nobuilder" if one.how == "nobuilder" else one.status,
            "round": one.round,
            "machine": self._uri(one),
            "slot": None if one.place is None else one.place.slot,
            "begin": times.begun,
            "end": times.ended,
            "bytes": self._bytes(one.copied),
            "log": self._log(path, one),
            "cause": self.why(path, one),
        }


def derivations(report: Report, sources: Sources) -> List[Dict[str, object]]:
    """The objects of all derivations, in the order in which they came up."""
    return [sources.derivation(path, one) for path, one in report.standing.items()]


def report_json(report: Report, sources: Sources, status: int, interrupted: str, rounds: int) -> str:
    """The text of report.json."""
    head = {"status": status, "interrupted": interrupted or None, "rounds": rounds, "counts": report.counts()}
    lines = [json.dumps(one) for one in derivations(report, sources)]
    return json.dumps(head)[:-1] + ',\n "derivations": [' + ",".join(f"\n  {line}" for line in lines) + "\n ]}\n"
