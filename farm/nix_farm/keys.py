"""Keys that this user can't read, and whether Nix's daemon does for it what a run leaves to it.

Where Nix's daemon has this store its build hook logs in to machines as the daemon's user, so with keys that only that one
reads: copies to such a machine are left to the hook then.
"""

import os
from typing import Dict, Iterable, List

from .daemon import Daemon, Failed
from .errors import GivenUp
from .folder import say
from .park import Machine

_STATE = "/nix/var/nix"


def is_by_daemon(remote: str) -> bool:
    """Whether this machine's store, which NIX_REMOTE names, is asked by Nix's daemon."""
    if remote in ("", "auto"):
        return not os.access(os.environ.get("NIX_STATE_DIR", _STATE), os.W_OK)
    return remote == "daemon" or remote.startswith("unix://")


def _why_unread(key: str) -> str:
    """Why a key can't be read; empty where it can."""
    if not key or os.access(key, os.R_OK):
        return ""
    folder = os.path.dirname(key) or "."
    if os.access(folder, os.X_OK) and not os.path.lexists(key):
        return f"there is no key {key}"
    return f"the key {key} can't be read by this user"


def look_at_keys(machines: Iterable[Machine], by_daemon: bool) -> None:
    """Says once of each key that can't be read what comes of it and what to do, and leaves copies to the daemon where that
    may read it."""
    told: Dict[str, List[Machine]] = {}
    for machine in machines:
        why = _why_unread(machine.key) if machine.is_remote else ""
        if why:
            told.setdefault(why, []).append(machine)
    for why, those in told.items():
        uris = " ".join(machine.uri for machine in those)
        if by_daemon and not why.startswith("there is no"):
            for machine in those:
                machine.is_left_to_daemon = True
            say(f"{why}, so copies to {uris} are left to Nix's daemon, which may read it; with a key of its own they go ahead")
        else:
            say(f"{why}, so {uris} can't be logged in to: give this user a key that it may read, in the builders list")


async def look_for_trust(daemon: Daemon) -> None:
    """GivenUp where the daemon takes no builders list from this user, since it would choose machines by itself."""
    try:
        is_trusted = await daemon.is_trusted()
    except Failed:
        return
    finally:
        await daemon.close()
    if not is_trusted:
        why = "Nix's daemon takes no builders list from this user"
        raise GivenUp(3, f"{why}: name it in `trusted-users` of /etc/nix/nix.conf on this machine")
