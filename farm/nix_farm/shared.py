"""Slots of a machine that several coordinators share: whoever has a lease there holds one of them, by a lock of a file.

The lock is held by a shell on the machine, over the ssh connection that the slots share, and given back with it however
that ends; where it ends by itself a moment later, since what was built by it ends then too.
"""

import asyncio
import shlex
from typing import Callable, List, Optional

from .blame import Fault, printable
from .machine import Connection
from .park import Machine
from .process import Processes, has_ended

# The seconds for which a slot is waited for.
BOUND = 3600.0
# What holds one of $1 slots: it says `waits` each second while all are taken, and then `slot N`, until it is told `done`. What
# it says later shows it that its connection is gone.
_SCRIPT = """
at=${NIX_DISPATCH_SLOTS-/tmp/nix-dispatch-slots}
command -v flock > /dev/null || { echo 'flock is not there' >&2; exit 1; }
[ -d "$at" ] || mkdir -m 1777 "$at" || exit 1
while :; do
  slot=0
  while [ "$slot" -lt "$1" ]; do
    [ -e "$at/$slot" ] || (umask 0; : >> "$at/$slot") || exit 1
    (
      flock -n 9 || exit 1
      echo "slot $slot"
      (while sleep 5 > /dev/null && echo beat; do :; done) 9<&- 2> /dev/null &
      read -r word
      kill $!
      [ "$word" = done ] || sleep 10
    ) 9< "$at/$slot" && exit 0
    slot=$((slot + 1))
  done
  echo waits
  sleep 1
done
"""


class SharedSlot:
    """A slot of a machine that is held there for a lease."""

    def __init__(self, processes: Processes, machine: Machine, connection: Optional[Connection]) -> None:
        """There is no connection to this machine."""
        self._processes = processes
        self._machine = machine
        self._connection = connection
        self._process: Optional[asyncio.subprocess.Process] = None

    def _words(self) -> List[str]:
        script = ["sh", "-c", _SCRIPT, "sh", str(self._machine.jobs)]
        if self._connection is None or not self._machine.is_remote:
            return script
        host = self._machine.store.partition("://")[2].partition("?")[0]
        key = ["-i", self._machine.key] if self._machine.key else []
        options = ["-x", "-a", "-o", "BatchMode=yes", "-o", "ControlMaster=no", *self._connection.env["NIX_SSHOPTS"].split()]
        return ["ssh", *options, *key, host, " ".join(map(shlex.quote, script))]

    async def take(self, waits: Callable[[], None]) -> Optional[Fault]:
        """Holds one of the machine's slots: None, or why none can be held; `waits` is called where all are taken."""
        await self.give_back()
        pipe = asyncio.subprocess.PIPE
        try:
            self._process = await self._processes.start(self._words(), stdin=pipe, stdout=pipe, stderr=asyncio.subprocess.STDOUT)
            said = await asyncio.wait_for(self._hear(waits), BOUND)
        except asyncio.TimeoutError:
            await self.give_back()
            return Fault("no", "here", f"all its slots were taken by others for {BOUND:g} seconds")
        if said is None:
            return None
        await self.give_back()
        return Fault("no", "machine", f"no slot can be held there: {printable(said) or 'the connection has ended'}")

    async def _hear(self, waits: Callable[[], None]) -> Optional[bytes]:
        """Waits until a slot is held: None, or what was said last where none is."""
        assert self._process is not None and self._process.stdout is not None
        last, is_told = b"", False
        while True:
            line = await self._process.stdout.readline()
            if line.startswith(b"slot "):
                return None
            if not line:
                return last
            last = line.strip()
            if last == b"waits" and not is_told:
                is_told = True
                waits()

    async def give_back(self) -> None:
        """Gives the slot back."""
        process, self._process = self._process, None
        if process is None:
            return
        assert process.stdin is not None
        try:
            process.stdin.write(b"done\n")
            process.stdin.close()
        except OSError:
            pass
        await has_ended(process, 5)
        await self._processes.end(process)
