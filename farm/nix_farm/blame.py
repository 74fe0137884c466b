"""Whose fault it is that Nix didn't do what an agent asked it for, by what Nix and ssh said.

What counts is what stands in `TABLE`. A builder is to blame only where Nix says so in words of that table; whatever else
ends a build is `lost`. What a builder itself says doesn't count: of a build on a machine only the line of Nix's hook that
names the derivation does, and of one here the last line that is Nix's. The messages are those of Nix 2.8; checks/blame
has them, and what is said of each.
"""

import re
from dataclasses import dataclass
from typing import Callable, List, NamedTuple, Optional, Pattern, Sequence, Tuple

# The status of what took longer than it was given, as timeout(1) has it.
TIMED_OUT = 124


class Fault(NamedTuple):
    """Whose fault it was, and why.

    answer  what an agent answers: of a build `failed C` or `lost`; of a copy `no`; of a connect `no`, or `again` where
            another try may help
    who     `builder`, `machine` (the machine, or the way to it) or `here` (this machine, or its store)
    cause   one line of printable ASCII
    """

    answer: str
    who: str
    cause: str


@dataclass(frozen=True)
class Row:
    """Words of Nix or ssh, as a pattern over bytes, and what they say of a call: the answer, and who is to blame.

    Of a builder the answer `exit` stands for `failed` with the code that the words end with, at most 255, and `signal`
    for 128 and the signal's number that they have; of `ran` for whoever ran the builder: this machine or the other one.
    """

    words: Pattern[bytes]
    answer: str
    who: str


def _rows(who: str, answer: str, *words: bytes) -> List[Row]:
    return [Row(re.compile(one), answer, who) for one in words]


# What ends a build, by whoever ran the builder.
OF_BUILDERS: Sequence[Row] = (
    *_rows("builder", "exit", rb"^builder for '.*' failed with exit code ([0-9]+)"),
    # what ends everything on a machine that stops, or that has no memory left
    *_rows("ran", "lost", rb"^builder for '.*' failed due to signal (1|2|9|15) "),
    *_rows("builder", "signal", rb"^builder for '.*' failed due to signal ([0-9]+) "),
    *_rows("builder", "failed 100", rb"^builder for '.*' failed to produce output path "),
    *_rows("builder", "failed 101", rb" timed out after [0-9]+ seconds"),
    *_rows("builder", "failed 102", rb"^hash mismatch in fixed-output derivation "),
    *_rows(
        "builder",
        "failed 104",
        rb" may not be deterministic",
        rb"^output '.*' of '.*' differs from ('.*' from )?previous round",
    ),
    *_rows(
        "builder",
        "failed 100",
        rb"^output '.*' is not allowed to refer to ",
        rb"^output '.*' is not allowed to have ",
        rb"^output .*check for '.*' contains",
        rb"^derivation contains an illegal reference specifier",
        rb"^suspicious ownership or permission on ",
    ),
)

# What Nix says on a machine to a user that it doesn't trust.
_UNTRUSTED = rb"lacks a (valid )?signature|not privileged to build|is not allowed to (build|copy)"

# What keeps Nix from a machine, or from this store.
OF_WAYS: Sequence[Row] = (
    # of ssh, where another try may help
    *_rows(
        "machine",
        "again",
        rb"kex_exchange_identification",
        rb"Connection reset",
        rb"Connection closed by",
        rb"Connection refused",
        rb"Session open refused",
    ),
    # and where it doesn't
    *_rows(
        "machine",
        "no",
        rb"imed out",
        rb"Timeout, server",
        rb"Permission denied",
        rb"Host key verification failed",
        rb"Could not resolve hostname",
        rb"No route to host",
        rb"ommand not found",
        _UNTRUSTED,
    ),
    # of this store and of this machine
    *_rows(
        "here",
        "no",
        rb"path '.*' is not valid",
        rb"path '.*' does not exist in the store",
        rb"path '.*' is required, but there is no substituter",
        rb"cannot build missing derivation",
        rb"cannot open connection to remote store",
        rb"nix-daemon says nothing any more",
        rb"interrupted by the user",
    ),
)

TABLE: Sequence[Row] = (*OF_BUILDERS, *OF_WAYS)

_NO_ROOM = b"No space left on device"
_ROOM_NOTE = b"note: build failure may have been caused by lack of free disk space"
# The first of several messages is the cause, but for these, which only say that there was one.
_SAYS_NOTHING = (b"error: cannot connect to ", b"error: unable to start any build")


def fault_of(message: bytes, call: str, status: int, where: str, drv: str = "") -> Fault:
    """Whose fault it is that a call didn't go well.

    message  all that Nix, ssh and the builder wrote, in any encoding
    call     `build`, `copy` or `connect`
    status   Nix's status as a shell has it; `TIMED_OUT` where it took longer than it was given
    where    `here` for a slot of this machine, `there` for one of another machine
    drv      of a build the path of its derivation
    """
    said = _Said(message, where, drv.encode(errors="surrogateescape"))
    fault = said.of_builder() if call == "build" else None
    if fault is None:
        fault = _of_way(said, call, status)
    return fault._replace(cause=_advised(_plain(fault.cause)) or f"Nix ended with status {status}")


def refuses_user(said: bytes) -> bool:
    """Whether ssh says that a machine is there and lets this user not in."""
    return b"Permission denied" in said or b"Host key verification failed" in said


def _advised(cause: str) -> str:
    """A cause, behind what is to be done about it where that is known."""
    if re.search(_UNTRUSTED, cause.encode()):
        return f"the machine doesn't trust its user: name it in `trusted-users` of /etc/nix/nix.conf there: {_plain(cause)}"
    return cause


def printable(words: bytes) -> str:
    """Words as one line of printable ASCII: a tab, a newline and a return are blanks, another byte that is none is `?`."""
    text = words.replace(b"\0", b"").decode("latin-1")
    return re.sub(r"[^ -~]", "?", re.sub(r"[\t\r\n]", " ", text))


def _plain(cause: str) -> str:
    return re.sub(r"^[ >]*(error: )?", "", cause)


class _Said:
    """The lines of a message, and those of them that count."""

    def __init__(self, message: bytes, where: str, drv: bytes) -> None:
        self.lines = message.split(b"\n")
        if not self.lines[-1]:
            self.lines.pop()
        self.where = where
        # the machine that ran the builder
        self.ran = "machine" if where == "there" else "here"
        self._hook = b"error: build of '" + drv + b"' on '"
        self._status = b"error: builder for '" + drv + b"' failed with exit code "

    def is_of_nix(self, line: bytes) -> bool:
        """Whether a line is Nix's own; of a machine's build that which this Nix ends each one with says nothing."""
        if self.where == "there" and line.startswith(self._status):
            return False
        return line.startswith((b"error: ", b"cannot build on "))

    def last(self, is_one: Callable[[bytes], bool]) -> int:
        """The number of the last line that is one of these, -1 where there is none."""
        return next((at for at in reversed(range(len(self.lines))) if is_one(self.lines[at])), -1)

    def of_builder(self) -> Optional[Fault]:
        """What the end of a build says of its builder; None where it blames neither that nor the machine."""
        full = self.last(lambda line: _ROOM_NOTE in line)
        if self.where == "there":
            end = self.last(lambda line: line.startswith(self._hook))
            if end < 0:
                return None
            words = self.lines[end].partition(b"' failed: ")[2]
            judged = self._judge(words, end < full < self._end_behind(end))
            return judged or Fault("lost", "machine", printable(words))
        end = self.last(self.is_of_nix)
        if end < 0:
            return None
        words = self.lines[end]
        return self._judge(words[7:] if words.startswith(b"error: ") else words, full > end)

    def _end_behind(self, end: int) -> int:
        """The line behind the hook's by which this Nix ends the build; behind all lines where there is none."""
        later = range(end + 1, len(self.lines))
        return next((at for at in later if self.lines[at].startswith(self._status)), len(self.lines))

    def _judge(self, words: bytes, is_full: bool) -> Optional[Fault]:
        row, found = _row_of(words, OF_BUILDERS)
        if row is None or found is None:
            return None
        cause = printable(words)
        if is_full:
            return Fault("lost", self.ran, "no space left: " + cause)
        if row.answer == "exit":
            return Fault(f"failed {min(int(found.group(1)), 255)}", row.who, cause)
        if row.answer == "signal":
            return Fault(f"failed {min(128 + int(found.group(1)), 255)}", row.who, cause)
        return Fault(row.answer, self.ran if row.who == "ran" else row.who, cause)


def _row_of(words: bytes, rows: Sequence[Row]) -> Tuple[Optional[Row], Optional["re.Match[bytes]"]]:
    """The first row that speaks of these words."""
    for row in rows:
        found = row.words.search(words)
        if found:
            return row, found
    return None, None


def _of_way(said: _Said, call: str, status: int) -> Fault:
    """Who is to blame where no builder is: the machine, the way to it, or this machine."""
    refused = "lost" if call == "build" else "no"
    if status == TIMED_OUT:
        return Fault(refused, "machine", "no answer in time")
    full = said.last(lambda line: line.startswith(b"error: ") and _NO_ROOM in line)
    if full >= 0:
        who = _without_room(said)
        place = "here" if who == "here" else "on the machine"
        return Fault(refused, who, f"no space left {place}: " + printable(said.lines[full]))
    for line in reversed(said.lines):
        row, _ = _row_of(line, OF_WAYS)
        if row is not None:
            return Fault(row.answer if call == "connect" else refused, row.who, printable(line))
    messages = [line for line in said.lines if said.is_of_nix(line)]
    telling = [line for line in messages if not line.startswith(_SAYS_NOTHING)]
    cause = (telling[:1] or messages[-1:] or [b""])[0]
    return Fault(refused, said.ran, printable(cause))


def _without_room(said: _Said) -> str:
    """Which of the two had no room left: the one that the last path was copied to."""
    if said.where == "here":
        return "here"
    way = said.last(lambda line: re.search(rb"^copying path .* (from|to) ", line) is not None)
    return "here" if way >= 0 and re.search(rb"^copying path .* from ", said.lines[way]) else "machine"
