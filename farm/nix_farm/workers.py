"""The machines of a run: their connections, and the agents of their slots."""

import functools
import os
from typing import Dict, List, Mapping

from .builds import Builds
from .chosen import Chosen
from .copies import Copies
from .daemon import Daemon
from .damage import Damage
from .derivation import Derivation
from .events import Events, read_events
from .folder import Folder, say
from .here import Here
from .keys import is_by_daemon, look_at_keys, look_for_trust
from .machine import SLOTS_OF_CONNECTION, SLOTS_WITH_LOCKS, Connections
from .options import Options
from .park import Machine, Place, places, read_park
from .process import Processes
from .rounds import allow_descriptors, to_blame_twice
from .shared import SharedSlot
from .slot import Slot


class Workers:
    """The machines by their numbers, of which 0 is this one."""

    def __init__(self, options: Options, processes: Processes, shared: str, root: str, here: Here) -> None:
        """`shared` is the folder of the agents, and this machine's store has its paths below `root`."""
        self._options = options
        self._processes = processes
        self._shared = shared
        self._here = here
        self._damage = Damage(processes, here, root, options.copy_timeout)
        self.machines: Dict[int, Machine] = {}
        self._connections: Dict[int, Connections] = {}

    async def take(self, park: str) -> None:
        """The machines of a park; GivenUp where Nix's daemon would choose among them by itself."""
        self.machines.update(read_park(park))
        by_daemon = is_by_daemon(os.environ.get("NIX_REMOTE", ""))
        look_at_keys(self.machines.values(), by_daemon)
        unshared = [machine.uri for machine in self.machines.values() if machine.is_left_to_daemon]
        if self._options.shared_slots and unshared:
            say(f"no slots are shared on {' '.join(unshared)}, since this user can't log in there")
        if by_daemon and any(machine.is_remote for machine in self.machines.values()):
            await look_for_trust(Daemon(self._processes, self._shared))
        slots = SLOTS_WITH_LOCKS if self._options.shared_slots else SLOTS_OF_CONNECTION
        bounds = self._options.connect_timeout, self._options.reconnect, slots
        for number, machine in self.machines.items():
            self._connections[number] = Connections(machine, self._processes, self._shared, *bounds)
        allow_descriptors(sum(machine.jobs for machine in self.machines.values()))

    @property
    def uris(self) -> Mapping[str, str]:
        """The URIs of the machines by their numbers."""
        return {str(number): machine.uri for number, machine in self.machines.items()}

    @property
    def places(self) -> List[Place]:
        return places(self.machines)

    def begin_round(self) -> None:
        """What was looked at and asked for is so once more."""
        self._damage.begin_round()
        for connections in self._connections.values():
            connections.begin_round()

    def slot(
        self,
        place: Place,
        folder: Folder,
        events: Events,
        settings: Mapping[str, str],
        drvs: Mapping[str, Derivation],
        chosen: Chosen,
    ) -> Slot:
        """The agent of a slot, for a round's derivations by their paths."""
        machine, connections = self.machines[place.machine], self._connections[place.machine]
        options, processes, here = self._options, self._processes, self._here
        connection, copies, asks = None, None, None
        if not machine.is_local:
            connection = connections.of_slot(place.slot)
            asks = functools.partial(connections.is_there, place.slot)
        if connection is not None and not machine.is_left_to_daemon:
            copies = Copies(processes, here, self._damage, machine, connection, options.copy_timeout)
        logs = folder.at("logs")
        builds = Builds(place, machine, connection, processes, self._shared, here, options, settings, logs, asks)
        shared = None
        if options.shared_slots and not machine.is_left_to_daemon:
            shared = SharedSlot(processes, machine, connection)
        return Slot(place, connections, shared, copies, builds, here, self._damage, events, drvs, chosen)

    def shut_out(self, events: str, before: int) -> None:
        """Machines that were to blame in two rounds before this one, by a file of events, get nothing more."""
        for number, cause in to_blame_twice(read_events(events), before).items():
            connections = self._connections.get(number)
            if connections is not None and not connections.shut_out:
                say(f"machine {number} gets nothing more, since it was to blame in two rounds: {cause}")
                connections.shut_out = f"to blame in two rounds: {cause}"

    async def close(self) -> None:
        """Ends what is kept open."""
        for connections in self._connections.values():
            await connections.close()
