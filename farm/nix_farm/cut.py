"""A graph cut down to what is still to be built, and what others wait for longest put first.

A derivation is needed where it is wanted and an output that is wanted of it isn't valid. What is needed and depends on
nothing that failed is to be built, those first on which the longest chain hangs. In its text an input that isn't needed
stands as the source that it is by now: its outputs are among the sources in place of it.
"""

from dataclasses import dataclass, field
from typing import Collection, Dict, List, Sequence, Set, Tuple

from .derivation import Derivation


class NotInGraph(Exception):
    """A root that is no derivation of the graph, as a link to one."""


@dataclass
class Cut:
    """What is left of a graph.

    lines    the bundle: a line for each derivation that is to be built, each behind its inputs
    paths    those derivations, in the same order
    sources  all sources of them
    left     what is needed and can't be built since it depends on something that failed
    stops    how many derivations were wanted and are valid
    """

    lines: List[str] = field(default_factory=list)
    paths: List[str] = field(default_factory=list)
    sources: Set[str] = field(default_factory=set)
    left: List[str] = field(default_factory=list)
    stops: int = 0

    @property
    def bundle(self) -> str:
        return "".join(self.lines)


class _Graph:
    """A graph whose derivations stand each behind its inputs, and which of their outputs aren't valid."""

    def __init__(self, drvs: Sequence[Derivation], invalid: Collection[str]) -> None:
        self.drvs = drvs
        self.number: Dict[str, int] = {drv.path: at for at, drv in enumerate(drvs)}
        self.output: Dict[Tuple[int, str], str] = {}
        for at, drv in enumerate(drvs):
            for name, path in drv.outputs:
                self.output[at, name] = path
        self._invalid = invalid

    def is_invalid(self, at: int, name: str) -> bool:
        path = self.output.get((at, name), "")
        return not path or path in self._invalid

    def needed(self, roots: Collection[str]) -> Tuple[List[bool], int]:
        """Which are needed, and how many were wanted and aren't."""
        needed = [False] * len(self.drvs)
        asked = [False] * len(self.drvs)
        stops = 0
        for at in range(len(self.drvs) - 1, -1, -1):
            drv = self.drvs[at]
            if drv.path in roots:
                asked[at] = True
                needed[at] = needed[at] or any(self.is_invalid(at, name) for name, _ in drv.outputs)
            if not needed[at]:
                stops += asked[at]
                continue
            for path, names in drv.inputs:
                to = self.number[path]
                asked[to] = True
                needed[to] = needed[to] or any(self.is_invalid(to, name) for name in names)
        return needed, stops

    def barred(self, needed: Sequence[bool], failed: Collection[str]) -> List[bool]:
        """Which of the needed ones failed, or depend on one that did."""
        bad = [False] * len(self.drvs)
        for at, drv in enumerate(self.drvs):
            if needed[at]:
                bad[at] = drv.path in failed or any(bad[self.number[path]] for path, _ in drv.inputs)
        return bad

    def by_chain(self, wanted: Sequence[bool]) -> List[int]:
        """The wanted ones, those first on which the longest chain of others hangs."""
        chain = [0] * len(self.drvs)
        layers: Dict[int, List[int]] = {}
        for at in range(len(self.drvs) - 1, -1, -1):
            if not wanted[at]:
                continue
            layers.setdefault(chain[at], []).append(at)
            for path, _ in self.drvs[at].inputs:
                to = self.number[path]
                chain[to] = max(chain[to], chain[at] + 1)
        return [at for height in sorted(layers, reverse=True) for at in reversed(layers[height])]

    def text(self, at: int, needed: Sequence[bool]) -> Tuple[str, List[str]]:
        """The text of a needed derivation, whose inputs that aren't needed have become sources; and its sources."""
        drv = self.drvs[at]
        kept = [(path, names) for path, names in drv.inputs if needed[self.number[path]]]
        sources = list(dict.fromkeys(drv.sources))
        if len(kept) == len(drv.inputs):
            return (drv.text if len(sources) == len(drv.sources) else drv.recut(kept, sources)), sources
        new = set(sources)
        for path, names in drv.inputs:
            to = self.number[path]
            if not needed[to]:
                new.update(self.output[to, name] for name in names)
        sources = sorted(new)
        return drv.recut(kept, sources), sources


def cut(drvs: Sequence[Derivation], roots: Collection[str], invalid: Collection[str], failed: Collection[str]) -> Cut:
    """Cuts a graph. `roots` are wanted with all their outputs, and `failed` aren't to be tried again.

    NotInGraph where a root isn't one of the graph's.
    """
    graph = _Graph(drvs, invalid)
    for root in roots:
        if drvs and root not in graph.number:
            raise NotInGraph(f"{root} is no derivation of the graph")
    needed, stops = graph.needed(set(roots))
    bad = graph.barred(needed, failed)
    found = Cut(stops=stops)
    found.left = [drv.path for at, drv in enumerate(drvs) if bad[at]]
    for at in graph.by_chain([one and not barred for one, barred in zip(needed, bad)]):
        text, sources = graph.text(at, needed)
        found.lines.append(f"{drvs[at].path} {text}\n")
        found.paths.append(drvs[at].path)
        found.sources.update(sources)
    return found
