"""The machines and slots, as `nix-dispatch park` lists them, and their store URIs."""

from dataclasses import dataclass, field
from typing import Dict, List


@dataclass(frozen=True)
class Place:
    """A slot of a machine; machine 0 is this one."""

    machine: int
    slot: int

    def __str__(self) -> str:
        return f"{self.machine}.{self.slot}"


@dataclass
class Machine:
    """A machine: its URI as the builders list has it, `local` for this one, and its keys, which may be empty.

    is_left_to_daemon  whether Nix's daemon alone may read its key, and so copies to it
    """

    number: int
    uri: str
    key: str
    host_key: str
    slots: List[int] = field(default_factory=list)
    is_left_to_daemon: bool = False

    @property
    def is_local(self) -> bool:
        return self.uri == "local"

    @property
    def jobs(self) -> int:
        return len(self.slots)

    @property
    def store(self) -> str:
        """The store as Nix's build hook is told it."""
        if self.uri in ("local", "daemon", "auto") or "/" in self.uri or "?" in self.uri:
            return self.uri
        return f"ssh://{self.uri}"

    @property
    def is_remote(self) -> bool:
        """Whether it is behind ssh."""
        return self.store.startswith(("ssh://", "ssh-ng://"))

    @property
    def keyed(self) -> str:
        """The store as Nix's commands are told it, with its keys."""
        words = [f"ssh-key={self.key}"] if self.key and not self.is_left_to_daemon else []
        words += [f"base64-ssh-public-host-key={self.host_key}"] if self.host_key else []
        keyed = self.store
        for word in words:
            keyed += ("&" if "?" in keyed else "?") + word
        return keyed

    def builders(self, platform: str, features: str) -> str:
        """A builders list of this machine alone, which builds for this platform and has these features."""
        key, host_key = self.key or "-", self.host_key or "-"
        return f"{self.store} {platform} {key} {self.jobs} 1 {features or '-'} - {host_key}"


def read_park(text: str) -> Dict[int, Machine]:
    """The machines by their numbers. Each line of the text is a slot: machine, slot, URI, key and host key."""
    machines: Dict[int, Machine] = {}
    for line in text.split("\n"):
        words = line.split(" ")
        if len(words) < 5:
            continue
        number = int(words[0])
        key, host_key = ("" if word == "-" else word for word in words[3:5])
        machine = machines.setdefault(number, Machine(number, words[2], key, host_key))
        machine.slots.append(int(words[1]))
    return machines


def places(machines: Dict[int, Machine]) -> List[Place]:
    """The slots in the order in which the program opens their pipes."""
    return [Place(number, slot) for number in sorted(machines) for slot in sorted(machines[number].slots)]
