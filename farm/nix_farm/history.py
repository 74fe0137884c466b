"""Journals and histories, entry by entry. An entry is its words; docs/DESIGN.md has the forms."""

from collections import Counter
from typing import Dict, Iterable, List, Optional, Sequence

from .derivation import Derivation
from .events import Note

Entry = List[str]


def whole_lines(text: bytes) -> bytes:
    """The lines of a journal that are whole."""
    return text[: text.rfind(b"\n") + 1]


def read_whole(file: str) -> bytes:
    """The whole lines of a journal's file, which may not be there."""
    try:
        with open(file, "rb") as text:
            return whole_lines(text.read())
    except FileNotFoundError:
        return b""


def entries(text: bytes) -> List[Entry]:
    """The entries of a history, behind its first line."""
    return [line.split(" ") for line in text.decode(errors="surrogateescape").split("\n")[:-1]]


def has_stop(text: bytes) -> bool:
    """Whether a fault has stopped the run."""
    return text.endswith(b"\nstop\n") or b"\nstop\n" in text


def count(text: bytes, kind: str) -> int:
    return sum(entry[0] == kind for entry in entries(text))


def lost_something(text: bytes) -> bool:
    """Whether leases were lost or a machine went down, so that another round may bring more."""
    for entry in entries(text):
        if entry[0] == "down" or (entry[0] == "failed" and entry[2:] in (["lost"], ["memory"], ["noworker"])):
            return True
    return False


def built_outputs(text: bytes, drvs: Sequence[Derivation]) -> List[str]:
    """The outputs of those derivations of a bundle that a history calls built."""
    built = {int(entry[1]) for entry in entries(text) if entry[0] == "built"}
    return [path for at in sorted(built) if at < len(drvs) for path in drvs[at].output_paths]


def _of_round(notes: Iterable[Note], number: int) -> List[Note]:
    found = []
    now: Optional[str] = None
    for note in notes:
        if note.words[0] == "round":
            now = note.words[1]
        if now == str(number):
            found.append(note)
    return found


def before_interruption(text: bytes, paths: Sequence[str], notes: Iterable[Note], number: int) -> bytes:
    """A round's history up to what an interruption itself has ended: the first `lost` or `down` that no agent noted."""
    told = [note for note in _of_round(notes, number) if "interrupted by the user" not in note.cause]
    lost = {note.words[1] for note in told if note.words[0] == "lost"}
    refused = Counter(note.machine for note in told if note.words[0] == "no")
    machine: Dict[str, str] = {}
    kept: List[bytes] = []
    for line, entry in zip(text.split(b"\n"), entries(text)):
        if entry[0] == "chosen":
            machine[entry[1]] = entry[2]
        unnoted = entry[0] == "failed" and entry[2:3] == ["lost"] and paths[int(entry[1])] not in lost
        if unnoted or entry[0] == "down":
            on = machine.get(entry[1], "")
            if refused[on] <= 0:
                break
            refused[on] -= 1
        kept.append(line + b"\n")
    return b"".join(kept)
