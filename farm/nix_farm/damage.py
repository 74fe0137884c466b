"""Paths of this store that are registered, and whose files are gone or others: no machine is to blame for what can't be
copied since they are."""

import asyncio
import os
import re
from typing import Dict, Iterable, List, Sequence, Set

from .bounds import Stalled, run_watched
from .daemon import Failed
from .here import Here
from .process import Processes

# The most paths that one command looks at.
_NAMED = 100
_MODIFIED = re.compile(r"path '([^']+)' was modified")
_PATH = re.compile(r"/[^ ']+/[0-9a-z]{32}-[0-9a-zA-Z+._?=-]+")


class Damage:
    """What was looked at of this store, whose paths lie below a folder, and what of it isn't as it was registered."""

    def __init__(self, processes: Processes, here: Here, root: str, bound: float) -> None:
        """A look may stand still for `bound` seconds."""
        self._processes = processes
        self._bound = bound
        self._here = here
        self._root = root
        self._good: Set[str] = set()
        self._known: Dict[str, str] = {}
        # who looks; the others take over what was seen
        self._lock = asyncio.Lock()

    def begin_round(self) -> None:
        """In each round it is looked at anew, since it may have been repaired."""
        self._good.clear()
        self._known.clear()

    def known(self, paths: Sequence[str]) -> str:
        """Why paths can't be copied, as far as it was seen by now; empty where nothing is known."""
        return next((self._known[path] for path in paths if path in self._known), "")

    async def of(self, paths: Sequence[str]) -> str:
        """Why paths can't be copied from this store: one that isn't readable, or not as it was registered. Empty where all
        are."""
        async with self._lock:
            cause = self._gone(paths)
            left = [path for path in paths if path not in self._good]
            while not cause and left:
                part, left = left[:_NAMED], left[_NAMED:]
                cause = await self._look_at(part)
            return cause

    async def of_build(self, inputs: Sequence[str], said: str) -> str:
        """The same of what a build needs, as far as that is known or its files are gone, and of the paths that what was said
        of it names."""
        try:
            closure = await self._closure(inputs)
        except Failed as failed:
            return failed.said.decode(errors="replace").strip()
        return self._gone(closure) or await self.of([path for path in _PATH.findall(said) if path in closure])

    async def _closure(self, paths: Iterable[str]) -> List[str]:
        found: Dict[str, None] = {}
        left = list(paths)
        while left:
            infos = await self._here.infos(left)
            found.update((info.path, None) for info in infos)
            left = list(dict.fromkeys(path for info in infos for path in info.references if path not in found))
        return list(found)

    def _gone(self, paths: Iterable[str]) -> str:
        for path in paths:
            if path not in self._known and not os.path.lexists(self._root + path):
                self._known[path] = self._cause(path, "its files are gone")
            if path in self._known:
                return self._known[path]
        return ""

    @staticmethod
    def _cause(path: str, why: str) -> str:
        return f"path '{path}' is damaged in this store: {why} (nix-store --repair-path may mend it)"

    async def _look_at(self, paths: Sequence[str]) -> str:
        """Why one of the paths isn't as it was registered."""
        try:
            looked = await run_watched(self._processes, ["nix-store", "--verify-path", *paths], None, self._bound)
        except Stalled:
            return f"path '{paths[0]}' can't be looked at: nothing is read of this store for {self._bound:g} seconds"
        if looked.status == 0:
            self._good.update(paths)
            return ""
        modified = _MODIFIED.search(looked.said.decode(errors="replace"))
        if modified:
            path, why = modified.group(1), "it isn't as it was registered"
        elif len(paths) > 1:
            causes = [await self._look_at([path]) for path in paths]
            return next((cause for cause in causes if cause), "")
        else:
            path, why = paths[0], looked.last_words()
        self._known[path] = self._cause(path, why)
        return self._known[path]
