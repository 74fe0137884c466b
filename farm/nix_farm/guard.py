"""The process that ends what a killed farm/build has left.

    python3 guard.py FOLDER

It reads on standard input `+ N` for a process group that is started, `- N` for one that has ended, and `done`. Where the
input ends without `done`, whoever wrote it was killed: then it ends the groups, at first by TERM, and the ssh connections
whose sockets are FOLDER's, and takes FOLDER away. It stands on nothing but the standard library's smallest parts, so that
it takes little memory.
"""

import os
import signal
import sys
import time
from typing import Optional, Set

# The seconds that a group has to end once it is told to, and an ssh that is told to end a connection.
_GRACE = 3.0
_LONGEST = 5.0


class Guard:
    """The side of whoever is guarded."""

    def __init__(self) -> None:
        self._input: Optional[int] = None
        self._process: Optional[int] = None

    def start(self, folder: str) -> None:
        """Starts the guard, in a session of its own; OSError where it can't be started."""
        reading, writing = os.pipe()
        words = [sys.executable, "-I", "-S", os.path.abspath(__file__), folder]
        nothing = os.open(os.devnull, os.O_RDWR)
        actions = [
            (os.POSIX_SPAWN_DUP2, reading, 0),
            (os.POSIX_SPAWN_DUP2, nothing, 1),
        ]
        try:
            self._process = os.posix_spawn(sys.executable, words, os.environ, file_actions=actions, setpgroup=0)
        finally:
            os.close(reading)
            os.close(nothing)
        self._input = writing

    def _tell(self, words: str) -> None:
        if self._input is not None:
            try:
                os.write(self._input, words.encode())
            except OSError:
                self._input = None

    def add(self, group: int) -> None:
        self._tell(f"+ {group}\n")

    def drop(self, group: int) -> None:
        self._tell(f"- {group}\n")

    def stop(self) -> None:
        """Ends the guard, which leaves all as it is."""
        self._tell("done\n")
        if self._process is not None:
            if self._input is not None:
                os.close(self._input)
            os.waitpid(self._process, 0)
        self._input = self._process = None


def _signal(groups: Set[int], number: int) -> Set[int]:
    """Signals groups; those that are left."""
    left = set()
    for group in groups:
        try:
            os.killpg(group, number)
            left.add(group)
        except OSError:
            pass
    return left


def end_connections(folder: str, how: str) -> None:
    """Ends the ssh connections whose sockets lie in a folder: `exit` at once, `stop` when nothing uses them any more."""
    try:
        names = os.listdir(folder)
    except OSError:
        return
    for name in names:
        if name.startswith("c."):
            words = ["ssh", "-O", how, "-o", f"ControlPath={folder}/{name}", "end"]
            _run_quietly(words)


def _run_quietly(words: "list[str]") -> None:
    nothing = os.open(os.devnull, os.O_RDWR)
    actions = [(os.POSIX_SPAWN_DUP2, nothing, at) for at in range(3)]
    try:
        child = os.posix_spawnp(words[0], words, os.environ, file_actions=actions)
        end = time.monotonic() + _LONGEST
        while os.waitpid(child, os.WNOHANG) == (0, 0):
            if time.monotonic() > end:
                os.kill(child, signal.SIGKILL)
            time.sleep(0.01)
    except OSError:
        pass
    finally:
        os.close(nothing)


def remove(folder: str) -> None:
    """Takes a folder of files away, as far as may be."""
    try:
        entries = list(os.scandir(folder))
    except OSError:
        return
    for entry in entries:
        if entry.is_dir(follow_symlinks=False):
            remove(entry.path)
        else:
            try:
                os.unlink(entry.path)
            except OSError:
                pass
    try:
        os.rmdir(folder)
    except OSError:
        pass


def _main() -> None:
    folder = sys.argv[1]
    for number in (signal.SIGHUP, signal.SIGINT, signal.SIGPIPE):
        signal.signal(number, signal.SIG_IGN)
    groups: Set[int] = set()
    for line in sys.stdin.buffer:
        if line == b"done\n":
            return
        if line.startswith(b"+ "):
            groups.add(int(line[2:]))
        elif line.startswith(b"- "):
            groups.discard(int(line[2:]))
    groups = _signal(groups, signal.SIGTERM)
    end = time.monotonic() + _GRACE
    while groups and time.monotonic() < end:
        time.sleep(0.1)
        groups = _signal(groups, 0)
    _signal(groups, signal.SIGKILL)
    end_connections(folder, "exit")
    remove(folder)


if __name__ == "__main__":
    _main()
