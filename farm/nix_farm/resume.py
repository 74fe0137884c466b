"""Whether a run that didn't come to its end is gone on from, and its rounds."""

import os
from dataclasses import dataclass, field
from typing import Dict, List, Mapping, Optional

from . import history
from .derivation import Derivation, read_bundle
from .errors import GivenUp
from .folder import Folder, Seen, say
from .gather import NotGathered, Store
from .park import Machine, read_park
from .program import Program
from .settings import words_of_text


@dataclass
class Round:
    """A round: its bundle, info text and history as they stand in files, what waits in it for something that failed, and its
    machines."""

    bundle: bytes
    info: bytes
    left: List[str]
    history: bytes = b""
    drvs: List[Derivation] = field(default_factory=list)
    machines: Mapping[int, Machine] = field(default_factory=dict)

    def __post_init__(self) -> None:
        if not self.drvs:
            self.drvs = read_bundle(self.bundle.decode(errors="surrogateescape"), keeps_text=False)

    @property
    def left_text(self) -> bytes:
        return "".join(path + "\n" for path in self.left).encode()


@dataclass
class Before:
    """A run that is gone on from: its rounds, and the program as it was run over the last one. With `is_other_park` the
    machines are others now, so what is left of it is another round."""

    rounds: List[Round]
    program: Program
    is_other_park: bool


# The words of a run that may change on the way.
_OF_PARK = {"builders", "system", "extra", "features", "jobs"}


class Other(Exception):
    """Why a run isn't gone on from, so that another one begins."""


def last_round(folder: Folder) -> int:
    """The last round of a run in a folder that isn't finished, 0 where there is none."""
    last = 0
    if os.path.lexists(folder.at(".unfinished")):
        while os.path.lexists(folder.at(f"bundle.{last + 1}")):
            last += 1
    return last


def _read(folder: Seen, name: str) -> bytes:
    try:
        with open(folder.at(name), "rb") as file:
            return file.read()
    except FileNotFoundError as error:
        raise Other(f"a file of the run in {folder.out} is gone, so another one begins") from error
    except OSError as error:
        raise GivenUp(5, f"{folder.at(name)} can't be copied") from error


def _machines(folder: Seen, number: int) -> Dict[int, Machine]:
    """The machines of a round; none where that isn't known."""
    try:
        with open(folder.at(f"park.{number}"), encoding="utf-8", errors="surrogateescape") as text:
            return read_park(text.read())
    except OSError:
        return {}


def rounds_of(folder: Seen, last: int) -> List[Round]:
    """The rounds of the run; each has a journal once its run has begun."""
    found = []
    for at in range(1, last + 1):
        bundle, info, left = (_read(folder, f"{kind}.{at}") for kind in ("bundle", "info", "left"))
        # no round has an empty bundle, but a machine that stops may leave one
        if not bundle:
            raise Other(f"a file of the run in {folder.out} is gone, so another one begins")
        try:
            told = history.read_whole(folder.at(f"journal.{at}"))
            waits = left.decode(errors="surrogateescape").split("\n")[:-1]
            found.append(Round(bundle, info, waits, told, machines=_machines(folder, at)))
        except OSError as error:
            raise GivenUp(5, f"{folder.at(f'journal.{at}')} can't be copied") from error
        except ValueError as error:
            raise Other(f"a file of the run in {folder.out} is none, so another one begins") from error
    return found


def _other_words(words: str, before: str) -> List[str]:
    """The first words of the lines that only one of two texts has."""
    lines: Dict[str, int] = {}
    for line in words.split("\n")[:-1] + before.split("\n")[:-1]:
        lines[line] = lines.get(line, 0) + 1
    return sorted({line.split(" ")[0] for line, times in lines.items() if times == 1})


async def _look_at(folder: Folder, program: Program, last: int) -> None:
    """Other where the journal can't be gone on from; GivenUp where it can't be looked at."""
    journal = folder.at(f"journal.{last}")
    if not os.path.lexists(journal):
        return
    looked = await program.report(folder.at(f"bundle.{last}"), folder.at(f"info.{last}"), journal)
    said = (looked.out + looked.said).decode(errors="replace").split("\n")[0]
    if looked.status == 3:
        raise Other(f"the run in {folder.out} can't be gone on from, so another one begins: {said}")
    if looked.status != 0:
        raise GivenUp(5, f"the run in {folder.out} can't be looked at: {said}")


async def _look_for_built(folder: Folder, store: Store, rounds: List[Round]) -> None:
    """Other where the store lacks something that was built; GivenUp where it can't be asked."""
    outputs = [path for one in rounds for path in history.built_outputs(one.history, one.drvs)]
    try:
        lacking = await store.invalid(outputs)
    except NotGathered as error:
        said = str(error).split("\n")[-1]
        raise GivenUp(3, f"the store can't be asked for what the run in {folder.out} had built: {said}") from error
    if lacking:
        why = f"what the run in {folder.out} had built isn't all there any more, so another one begins"
        raise Other(f"{why}: {lacking[0]}")


async def _before(folder: Folder, program: Program, store: Store, words: str, last: int) -> Before:
    before = _read(folder, ".unfinished").decode(errors="surrogateescape")
    others = _other_words(words, before) if before != words else []
    if before != words and not set(others) <= _OF_PARK:
        raise Other(f"the run in {folder.out} was begun with other words ({' '.join(others)}), so another one begins")
    rounds = rounds_of(folder, last)
    if history.has_stop(rounds[-1].history):
        raise Other(f"the run in {folder.out} was stopped by a fault, so another one begins")
    ran = program.with_words(words_of_text(before)) if before != words else program
    await _look_at(folder, ran, last)
    if before == words:
        await _look_for_built(folder, store, rounds)
    return Before(rounds, ran, before != words)


async def goes_on(folder: Folder, program: Program, store: Store, words: str) -> Optional[Before]:
    """The run that is gone on from; None where another one begins, and why is said.

    GivenUp where that can't be looked at: then the folder stays as it is.
    """
    last = last_round(folder)
    if last == 0:
        return None
    try:
        return await _before(folder, program, store, words, last)
    except Other as why:
        say(str(why))
        return None
