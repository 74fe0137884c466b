"""What a run keeps from the garbage collector: links in its folder to the derivations, whose closures have the sources, to
what is made of them, and to what they are cut off at. A link keeps what it leads to once that is there."""

import asyncio
import os
import re
from typing import Dict, Iterable, List

from .daemon import Failed
from .derivation import Derivation
from .folder import say
from .here import Here

_RESULT = re.compile("result(-[0-9]+)?")
# The seconds that a daemon has to look for roots.
_PATIENCE = 60.0


def rooted_paths(roots: Iterable[str], drvs: Iterable[Derivation]) -> List[str]:
    """The paths that a round keeps: the roots, and of each derivation of its bundle the outputs and the sources."""
    found = set(roots)
    for drv in drvs:
        found.update(drv.output_paths)
        found.update(drv.sources)
    return sorted(found)


async def root_all(here: Here, folder: str, number: int, paths: List[str]) -> None:
    """Keeps the paths of a round by links in a folder. Where that fails it is said, and the run goes on."""
    links: Dict[str, str] = {}
    for place, path in enumerate(paths, 1):
        links[f"{folder}/{number}" if place == 1 else f"{folder}/{number}-{place}"] = path
    try:
        os.makedirs(folder, exist_ok=True)
        await here.root(links)
    except Failed as failed:
        last = "\n".join(failed.said.decode(errors="replace").strip().split("\n")[-3:])
        say(f"nothing is rooted for the run:\n{last}")
    except OSError:
        say("not all is rooted for the run")


def links_of(folder: str) -> List[str]:
    """The links that a run has in its folder."""
    found: List[str] = []
    for below in (f"{folder}/gcroots", folder):
        try:
            names = os.listdir(below)
        except OSError:
            continue
        found += [f"{below}/{name}" for name in names if below != folder or _RESULT.fullmatch(name)]
    return found


async def forget(here: Here, links: Iterable[str]) -> None:
    """Has the store keep nothing of those links that are gone. Where that fails it is left to a collection."""
    gone = [link for link in links if not os.path.lexists(link)]
    try:
        await asyncio.wait_for(here.forget(gone), _PATIENCE)
    except (Failed, OSError, asyncio.TimeoutError):
        pass


async def link_results(here: Here, out: str, made: List[str]) -> None:
    """Links to what the roots have made, as roots of the garbage collector."""
    for place, path in enumerate(made):
        link = f"{out}/result-{place}" if place else f"{out}/result"
        try:
            await here.root({link: path})
        except Failed as failed:
            say(f"{link} can't be made:\n{failed.said.decode(errors='replace').rstrip()}")
        except OSError as error:
            say(f"{link} can't be made:\n{error.strerror}")


async def valid_ones(here: Here, paths: List[str]) -> List[str]:
    """Those of the paths that are valid; none where the store can't be asked."""
    try:
        return await here.valid(paths)
    except Failed:
        return []
