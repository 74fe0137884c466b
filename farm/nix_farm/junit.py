"""The report as `junit.xml`, which CI services show: a case for each derivation."""

import re
from collections import Counter
from datetime import datetime, timezone
from typing import Dict, List, Mapping, Optional, Sequence
from xml.sax.saxutils import escape, quoteattr

from .derivation import name_of
from .logs import log_end

# What XML 1.0 has no place for, not even escaped.
_FORBIDDEN = re.compile("[^\t\n\r\x20-\ud7ff\ue000-\ufffd\U00010000-\U0010ffff]")
_NEVER = {"waiting": "it was never begun", "leased": "it hadn't ended when the run did"}
_FAILED = ("failed", "nobuilder")


def _text(words: str) -> str:
    return escape(_FORBIDDEN.sub("", words))


def _attributes(given: Mapping[str, object]) -> str:
    return "".join(f" {name}={quoteattr(_FORBIDDEN.sub('', str(value)))}" for name, value in given.items())


def _seconds(begin: Optional[object], end: Optional[object]) -> str:
    lasted = end - begin if isinstance(begin, int) and isinstance(end, int) else 0
    return f"{max(0, lasted) / 1000:.3f}"


def _case(name: str, one: Mapping[str, object]) -> List[str]:
    """The case of a derivation, as lines."""
    cause = one["cause"] or _NEVER.get(str(one["status"]), "")
    where = [f"machine: {one['machine']}, slot {one['slot']}"] if one["machine"] is not None else []
    where += [f"log: {one['log']}"] if one["log"] is not None else []
    given = {"classname": "nix-dispatch", "name": name, "time": _seconds(one["begin"], one["end"])}
    lines = [f"    <testcase{_attributes(given)}>"]
    if one["status"] in _FAILED:
        end = "\n".join(log_end(one["log"]))
        lines.append(f"      <failure{_attributes({'message': cause, 'type': one['status']})}>{_text(end)}</failure>")
    elif one["status"] != "built":
        lines.append(f"      <skipped{_attributes({'message': cause})}/>")
    told = "\n".join([f"derivation: {one['derivation']}", *where])
    return [*lines, f"      <system-out>{_text(told)}</system-out>", "    </testcase>"]


def _names(paths: Sequence[str]) -> Dict[str, str]:
    """The names of derivations; where several have one name, the path stands behind it."""
    times = Counter(map(name_of, paths))
    return {path: name_of(path) if times[name_of(path)] == 1 else f"{name_of(path)} ({path})" for path in paths}


def junit(derivations: Sequence[Mapping[str, object]]) -> str:
    """The text of junit.xml, of the objects that report.json has."""
    names = _names([str(one["derivation"]) for one in derivations])
    kinds = Counter(str(one["status"]) for one in derivations)
    failed = sum(kinds[kind] for kind in _FAILED)
    begun = [one["begin"] for one in derivations if isinstance(one["begin"], int)]
    ended = [one["end"] for one in derivations if isinstance(one["end"], int)]
    first = min(begun, default=None)
    counts = {
        "name": "nix-dispatch",
        "tests": len(derivations),
        "failures": failed,
        "errors": 0,
        "skipped": len(derivations) - failed - kinds["built"],
        "time": _seconds(first, max(ended, default=None)),
    }
    if first is not None:
        counts["timestamp"] = datetime.fromtimestamp(first // 1000, timezone.utc).strftime("%Y-%m-%dT%H:%M:%S")
    lines = ['<?xml version="1.0" encoding="UTF-8"?>', "<testsuites>", f"  <testsuite{_attributes(counts)}>"]
    for one in derivations:
        lines += _case(names[str(one["derivation"])], one)
    return "\n".join([*lines, "  </testsuite>", "</testsuites>"]) + "\n"
