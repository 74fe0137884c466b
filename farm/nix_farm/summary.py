"""How a run stands in a few lines: the counts, and what has failed."""

from collections import Counter
from typing import List, Mapping, Sequence

from .derivation import name_of
from .report import Report
from .report_json import Sources

# So many derivations that no machine may build are named, and so many failures.
_NAMED = 100


def counts_line(counts: Mapping[str, int]) -> str:
    """The counts of a report in a line."""
    kinds = ("built", "failed", "cancelled", "leased", "waiting")
    told = [f"{counts[kind]} {kind}" for kind in kinds if counts[kind] or kind == "built"]
    return f"{', '.join(told)} of {counts['total']}"


def failures(report: Report, sources: Sources) -> List[str]:
    """A line for each derivation that failed: how, where, why, its log, and how many are cancelled since they depend on it."""
    behind = Counter(one.below for one in report.standing.values() if one.status == "cancelled")
    lines = []
    for path, one in report.standing.items():
        if one.status == "failed":
            how = f"failed with {one.how}" if one.how.startswith("status ") else one.how or "failed"
            more = f"; {behind[path]} that depend on it are cancelled" if behind[path] else ""
            lines.append(_failure(sources.derivation(path, one), how, more))
    return _few(lines)


def failures_of_json(derivations: Sequence[Mapping[str, object]]) -> List[str]:
    """The same of what `report.json` has."""
    return _few([_failure(one, str(one["status"]), "") for one in derivations if one["status"] in ("failed", "nobuilder")])


def _failure(told: Mapping[str, object], how: str, more: str) -> str:
    machine = "this machine" if told["machine"] == "local" else told["machine"]
    where = f" on {machine}" if machine and how != "nobuilder" else ""
    log = f" (log {told['log']})" if told["log"] else ""
    return f"{how}: {told['derivation']}{where}: {told['cause']}{more}{log}"


def never_built(reasons: Mapping[str, str]) -> List[str]:
    """A line for each derivation that no machine may ever build."""
    return _few([f"nobuilder: {name_of(path)}: {why} ({path})" for path, why in reasons.items()])


def _few(lines: List[str]) -> List[str]:
    left = len(lines) - _NAMED
    return lines if left <= 0 else [*lines[:_NAMED], f"and {left} more"]
