"""What agents note, in their logs and in `events`.

A note is a line with the time in milliseconds since 1970 before it: `copy N DRV` of so many paths for a derivation and
`copied STATUS`, `begin DRV` and `end DRV STATUS`, `valid DRV`, `failed DRV C WHO CAUSE`, `lost DRV WHO CAUSE` and
`no WHO CAUSE` of a machine; `cut DRV CAUSE` where a lease was cut short and `resumed DRV` where it goes on, with `-` where
it isn't known for what it was; `waits` where all shared slots of a machine are taken. In a log stand also Nix's messages; in
`events` the machine and the slot come before each note, and a line `round K SIZE` begins a round, or
`again K SIZE BUILT FAILED` one that is gone on with; `list K` says that the machines are others from that round on.
"""

import os
import time
from typing import Callable, Iterable, List, NamedTuple, Optional

from .park import Place


class Note(NamedTuple):
    """A line of `events`: the time in milliseconds, the place, `- -` where it is of none, and the words."""

    at: int
    machine: str
    slot: str
    words: List[str]

    @property
    def cause(self) -> str:
        """Why a build failed or was lost, or a machine is down."""
        return " ".join(self.words[{"failed": 4, "lost": 3, "no": 2, "cut": 2}.get(self.words[0], len(self.words)) :])


# The fewest words of each kind of note; what a full disk has left of a line has fewer.
_FEWEST = {
    **{"begin": 2, "valid": 2, "end": 3, "failed": 5, "lost": 4, "no": 3, "cut": 3, "resumed": 2},
    **{"round": 3, "again": 5, "list": 2, "copy": 2, "copied": 2},
}


def read_note(line: str) -> Optional[Note]:
    """A line of `events`; None where it isn't whole."""
    words = line.split()
    if len(words) < 4 or not words[0].isdigit() or len(words) - 3 < _FEWEST.get(words[3], 1):
        return None
    return Note(int(words[0]), words[1], words[2], words[3:])


def read_events(file: str) -> List[Note]:
    """All that is noted in a file, which may be gone."""
    try:
        with open(file, encoding="utf-8", errors="replace") as text:
            return [note for note in map(read_note, text) if note is not None]
    except OSError:
        return []


class Events:
    """The notes of a run in its folder. Where a disk is full they are lost, and nothing else is."""

    def __init__(self, folder: str, hear: Callable[[Note], None]) -> None:
        """`hear` is told each note."""
        self._folder = folder
        self._hear = hear
        self._events = os.open(f"{folder}/events", os.O_WRONLY | os.O_APPEND | os.O_CREAT | os.O_CLOEXEC, 0o666)
        self._whole = True
        self._end_line()

    def _end_line(self) -> None:
        """A killed run may have left a line without its end."""
        with open(f"{self._folder}/events", "rb") as text:
            if text.seek(0, os.SEEK_END) > 0:
                text.seek(-1, os.SEEK_END)
                self._whole = text.read(1) == b"\n"

    def note(self, place: Place, *words: object) -> None:
        """Notes what happened at a place."""
        at = int(time.time() * 1000)
        text = " ".join(str(word) for word in words)
        self.log(place, f"{at} {text}\n".encode(errors="surrogateescape"))
        self._write(f"{at} {place.machine} {place.slot} {text}\n")
        self._hear(Note(at, str(place.machine), str(place.slot), text.split()))

    def note_round(self, *words: object) -> None:
        """Notes the beginning of a round, or that one is gone on with."""
        at = int(time.time()) * 1000
        text = " ".join(str(word) for word in words)
        self._write(f"{at} - - {text}\n")
        self._hear(Note(at, "-", "-", text.split()))

    def _write(self, line: str) -> None:
        data = ("" if self._whole else "\n").encode() + line.encode(errors="surrogateescape")
        try:
            self._whole = os.write(self._events, data) == len(data)
        except OSError:
            pass

    def log(self, place: Place, data: bytes) -> None:
        """Writes to the log of a slot."""
        if not data:
            return
        try:
            with open(f"{self._folder}/{place}.log", "ab", buffering=0) as log:
                log.write(data)
        except OSError:
            pass

    def log_all(self, place: Place, parts: Iterable[bytes]) -> None:
        for part in parts:
            self.log(place, part)

    def close(self) -> None:
        os.close(self._events)
