"""The longest chain of builds: what a run would take at least, had it any number of machines."""

from typing import Dict, Iterable, List, Mapping, Sequence, Tuple


def longest_chain(drvs: Iterable[Tuple[str, Sequence[str]]], times: Mapping[str, Tuple[int, int]]) -> List[str]:
    """Of derivations with their inputs, each behind these, the builds that follow on each other and take longest together.

    `times` say when a build began and ended. What has none there, or took no time, is passed through and isn't named; of
    chains that take the same time it is the one that comes first.
    """
    takes: Dict[str, int] = {}
    before: Dict[str, str] = {}
    for path, inputs in drvs:
        if path in takes:
            continue
        longest = max(inputs, key=lambda one: takes.get(one, 0), default="")
        begin, end = times.get(path, (0, 0))
        takes[path] = takes.get(longest, 0) + max(0, end - begin)
        if takes.get(longest, 0):
            before[path] = longest
    at = max(takes, key=lambda one: takes[one], default="")
    found = []
    while at:
        begin, end = times.get(at, (0, 0))
        found += [at] if end > begin else []
        at = before.get(at, "")
    return found[::-1]
