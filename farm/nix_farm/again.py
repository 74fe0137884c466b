"""A lease that was cut short: its machine is asked again, for so many seconds, before it is lost."""

import asyncio
import re
import time
from typing import Callable

from .blame import Fault
from .machine import Connections

# What says that the way to a machine has ended, or the machine.
_CUT = re.compile(
    r"unexpected end-of-file|[Bb]roken pipe|Connection (reset|closed|refused|to .* closed)|imed out|Timeout, server"
    r"|No route to host|Network is unreachable|closed by remote host|Could not resolve hostname|kex_exchange_identification"
    r"|failed to start SSH|cannot connect to|doesn't answer any more"
)
# The seconds behind which a lease that goes on and is cut again has all of its time once more.
_LASTED = 60.0
# The longest wait between two tries, in seconds, and how often a lease goes on.
_WAIT = 15.0
_TIMES = 10


def was_cut(fault: Fault) -> bool:
    """Whether a build or a copy has ended with the way to its machine, and not by what it is."""
    return fault.who == "machine" and fault.answer in ("lost", "no") and _CUT.search(fault.cause) is not None


class Again:
    """How often and how long the machine of one lease is asked again."""

    def __init__(self, connections: Connections, slot: int, seconds: float) -> None:
        self._connections = connections
        self._slot = slot
        self._seconds = seconds
        self._until = 0.0
        self._went_on = -_LASTED
        self._tries = self._times = 0

    async def goes_on(self, fault: Fault, log: Callable[[bytes], None], told: Callable[[], None]) -> bool:
        """Whether the machine of a lease that this fault has cut answers again in time; `told` is called before it is asked."""
        self._times += 1
        if self._seconds <= 0 or self._times > _TIMES or self._connections.shut_out or not was_cut(fault):
            return False
        now = time.monotonic()
        if now - self._went_on >= _LASTED:
            self._until, self._tries = now + self._seconds, 0
        told()
        self._connections.is_up = False
        wait = min(_WAIT, 2.0**self._tries)
        if now + wait > self._until:
            return False
        await asyncio.sleep(wait)
        self._tries += 1
        if not await self._connections.again(self._slot, self._until, log):
            return False
        self._went_on = time.monotonic()
        return True
