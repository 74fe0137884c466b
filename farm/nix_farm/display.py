"""How far a run is, while it goes on.

On a terminal a block of lines is written anew: the counts, and each copy and build that goes on, the longest first, as many
as there is room for. Else there is a line for each build that ended. Of a build that fails the last lines of its builder
stand behind, of a machine that goes down the cause.
"""

import asyncio
import os
import time
from typing import Callable, Dict, List, Mapping, NamedTuple, Set, Tuple

from .derivation import name_of
from .events import Note

# How much of a log is looked at for its last lines, in bytes.
_LOOKED_AT = 1 << 16
# The seconds between two drawings of the block at least.
BEAT = 0.1


def last_lines(file: str, count: int = 25) -> List[str]:
    """The last lines of a log; none where it isn't there."""
    try:
        with open(file, "rb") as log:
            log.seek(max(0, os.path.getsize(file) - _LOOKED_AT))
            text = log.read().decode(errors="backslashreplace")
    except OSError:
        return []
    return text.rstrip("\n").split("\n")[-count:] if text else []


class Doing(NamedTuple):
    """What a slot does, and since when, in milliseconds since 1970."""

    what: str
    name: str
    since: int


def lasted(milliseconds: int) -> str:
    """A time as minutes and seconds, or hours, minutes and seconds."""
    seconds = max(0, milliseconds) // 1000
    hours = f"{seconds // 3600}:{seconds // 60 % 60:02}" if seconds >= 3600 else f"{seconds // 60}"
    return f"{hours}:{seconds % 60:02}"


def doing_lines(busy: Mapping[Tuple[str, str], Doing], place: Callable[[str, str], str], now: int) -> List[str]:
    """A line for each copy and build that goes on, the longest first."""
    order = sorted(busy.items(), key=lambda one: one[1].since)
    return [f"{lasted(now - one.since):>8}  {one.what} {one.name} on {place(*at)}" for at, one in order]


def _name(drv: str) -> str:
    return "a copy" if drv == "-" else name_of(drv)


def _copied_for(note: Note) -> str:
    """What a copy is for, and how many paths it has."""
    name = _name(note.words[2] if len(note.words) > 2 else "-")
    return f"{name} ({note.words[1]} paths)"


class Screen:
    """A terminal with a block of lines at its end. `size` gives its columns and lines."""

    def __init__(self, write: Callable[[str], None], size: Callable[[], Tuple[int, int]]) -> None:
        self._write = write
        self._size = size
        self._drawn = 0

    def _erase(self) -> str:
        drawn, self._drawn = self._drawn, 0
        return (f"\r\033[{drawn - 1}A" if drawn > 1 else "\r" if drawn else "") + ("\033[J" if drawn else "")

    def say(self, text: str) -> None:
        """Says lines before the block."""
        self._write(self._erase() + text)

    def draw(self, lines: List[str]) -> None:
        """The block with other lines, as many as there is room for."""
        columns, rows = self._size()
        room = max(1, rows - 1)
        if len(lines) > room:
            lines = [*lines[: room - 1], f"         and {len(lines) - room + 1} more"] if room > 1 else lines[:1]
        erased = self._erase()
        self._drawn = len(lines)
        self._write(erased + "\n".join(line[: columns - 1] for line in lines))

    def end(self) -> None:
        if self._drawn:
            self._write("\n")
            self._drawn = 0


def size_of_terminal() -> Tuple[int, int]:
    """The columns and the lines of the terminal of standard error."""
    try:
        columns, rows = os.get_terminal_size(2)
    except OSError:
        columns, rows = 0, 0
    return columns or 80, rows or 24


class Display:
    """Tells of a run in a folder what it hears."""

    def __init__(
        self,
        out: str,
        uris: Callable[[], Mapping[str, str]],
        write: Callable[[str], None],
        terminal: bool,
        size: Callable[[], Tuple[int, int]] = size_of_terminal,
    ) -> None:
        """`uris` gives the URI of each machine by its number, and `write` writes to standard error."""
        self._out = out
        self._uris = uris
        self._write = write
        self._screen = Screen(write, size) if terminal else None
        self._at = 0.0
        self._begin_round(0, 0, 0)

    def _begin_round(self, total: int, built: int, failed: int) -> None:
        self._total, self._built, self._failed = total, built, failed
        self._lost = 0
        self._told: Set[str] = set()
        self._busy: Dict[Tuple[str, str], Doing] = {}

    def _lines(self, *lines: str) -> None:
        text = "".join(line + "\n" for line in lines)
        if self._screen is None:
            self._write(text)
        else:
            self._screen.say(text)

    def doing(self) -> List[str]:
        """A line for each copy and build that goes on, the longest first."""
        return doing_lines(self._busy, self._place, int(time.time() * 1000))

    def _block(self) -> List[str]:
        failed, leased = self._failed + self._lost, len(self._busy)
        waiting = self._total - self._built - failed - leased
        counts = f"built {self._built}, leased {leased}, failed {failed}, waiting {waiting} of {self._total}"
        return [counts, *self.doing()]

    async def keep_shown(self) -> None:
        """Draws the block again and again on a terminal, until it is called off."""
        while self._screen is not None:
            await asyncio.sleep(BEAT)
            self.show()

    def show(self, at_once: bool = False) -> None:
        """Draws the block on a terminal, unless it was drawn a moment ago."""
        now = time.monotonic()
        if self._screen is not None and self._total and (at_once or now - self._at >= BEAT):
            self._at = now
            self._screen.draw(self._block())

    def end(self) -> None:
        """Ends the block."""
        if self._screen is not None:
            self.show(at_once=True)
            self._screen.end()

    def _uri(self, machine: str) -> str:
        uri = self._uris().get(machine, "")
        return "this machine" if uri == "local" else uri

    def _place(self, machine: str, slot: str) -> str:
        return f"{self._uri(machine)} (slot {machine}.{slot})"

    def hear(self, note: Note) -> None:
        """Tells what a note says."""
        kind = note.words[0]
        tell = {
            "round": self._round,
            "again": self._round,
            "copy": self._begin,
            "begin": self._begin,
            "valid": self._valid,
            "copied": self._end,
            "end": self._end,
            "failed": self._unbuilt,
            "lost": self._unbuilt,
            "no": self._down,
            "cut": self._cut,
            "resumed": self._resumed,
            "waits": self._waits,
        }.get(kind)
        if tell is not None:
            tell(note)
            self.show()

    def _round(self, note: Note) -> None:
        numbers = [int(word) for word in note.words[2:5] if word.isdigit()]
        self._begin_round(*(numbers + [0, 0, 0])[:3])

    def _begin(self, note: Note) -> None:
        is_copy = note.words[0] == "copy"
        what, name = ("copies for", _copied_for(note)) if is_copy else ("builds", name_of(note.words[1]))
        self._busy[note.machine, note.slot] = Doing(what, name, note.at)

    def _valid(self, note: Note) -> None:
        self._built += 1
        self._ended("valid", note)

    def _end(self, note: Note) -> None:
        self._busy.pop((note.machine, note.slot), None)
        if note.words[0] == "end" and note.words[2] == "0":
            self._built += 1
            self._ended("built", note)

    def _ended(self, how: str, note: Note) -> None:
        if self._screen is None:
            self._lines(f"{self._built} of {self._total}: {how} {name_of(note.words[1])} on {note.machine}.{note.slot}")

    def _unbuilt(self, note: Note) -> None:
        drv, how = note.words[1], "lost"
        if note.words[0] == "failed":
            how = f"failed with status {note.words[2]}"
            self._failed += 1
        else:
            self._lost += 1
        log = f"{self._out}/logs/{os.path.basename(drv)}"
        lines = [f"    {line}" for line in last_lines(f"{log}.last")]
        more = [f"the last lines of its builder, of {log}.log:", *lines] if lines else [f"its log is {log}.log"]
        if not os.path.exists(f"{log}.log"):
            more = []
        self._lines(f"{how}: {name_of(drv)} on {self._place(note.machine, note.slot)}: {note.cause}", *more)

    def _cut(self, note: Note) -> None:
        self._lines(f"cut: {_name(note.words[1])} on {self._place(note.machine, note.slot)}: {note.cause}; the machine is asked again")

    def _resumed(self, note: Note) -> None:
        self._lines(f"resumed: {_name(note.words[1])} on {self._place(note.machine, note.slot)}")

    def _waits(self, note: Note) -> None:
        self._lines(f"waits: all slots of {self._uri(note.machine)} are taken by others (slot {note.machine}.{note.slot})")

    def _down(self, note: Note) -> None:
        if note.machine not in self._told:
            self._told.add(note.machine)
            self._lines(f"down: {self._uri(note.machine)}: {note.cause}")
