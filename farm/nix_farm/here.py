"""This machine's store, as all slots of a run ask it: by one process that is spoken with."""

import asyncio
import hashlib
import os
from typing import Dict, Iterable, List, Optional, Sequence

from .daemon import Daemon, Failed, PathInfo
from .nar import nar_size
from .process import Processes


_LETTERS = "0123456789abcdfghijklmnpqrsvwxyz"


def _name_of_root(link: str) -> str:
    """The name under which a store keeps a link among its automatic roots: its SHA-1 in Nix's base 32."""
    digest = int.from_bytes(hashlib.sha1(link.encode(errors="surrogateescape")).digest(), "little")
    return "".join(_LETTERS[digest >> (5 * at) & 31] for at in reversed(range(32)))


class Here:
    """This machine's store, whose paths lie below a folder."""

    def __init__(self, processes: Processes, folder: str, root: str) -> None:
        self._daemon = Daemon(processes, folder)
        self._root = root
        self._lock = asyncio.Lock()
        self._infos: Dict[str, PathInfo] = {}

    def learn(self, info: PathInfo) -> None:
        """What another process has told of a path."""
        self._infos[info.path] = info

    def known_size(self, path: str) -> Optional[int]:
        """The size of a path as NAR, in bytes, where it was asked for by now."""
        info = self._infos.get(path)
        return None if info is None else info.size

    async def infos(self, paths: Iterable[str]) -> List[PathInfo]:
        """What the store knows of paths; Failed where one isn't valid."""
        found = []
        async with self._lock:
            for path in paths:
                info = self._infos.get(path) or await self._daemon.path_info(path)
                if info is None:
                    raise Failed(1, f"error: path '{path}' is not valid\n".encode())
                self._infos[path] = info
                found.append(info)
        return found

    async def nar(self, info: PathInfo) -> bytes:
        """The NAR of a path; Failed where it isn't valid any more, or where it isn't the one that was registered. What has
        another length isn't asked for: the rest of a shorter one would be waited for."""
        try:
            size = nar_size(self._root + info.path)
        except OSError:
            size = info.size  # the store says what is wrong
        if size != info.size:
            raise Failed(1, f"error: path '{info.path}' isn't as it was registered\n".encode())
        async with self._lock:
            return await self._daemon.nar(info)

    def has_files(self, paths: Iterable[str]) -> bool:
        """Whether there is something of each path, so that Nix is asked only then."""
        return all(os.path.lexists(self._root + path) for path in paths)

    async def are_valid(self, paths: Sequence[str]) -> bool:
        """Whether all of the paths are valid; Failed where the store can't be asked."""
        if not self.has_files(paths):
            return False
        async with self._lock:
            return await self._daemon.valid_paths(paths) >= set(paths)

    async def valid(self, paths: Sequence[str]) -> List[str]:
        """Those of the paths that are valid, in their order; Failed where the store can't be asked."""
        if not paths:
            return []
        async with self._lock:
            valid = await self._daemon.valid_paths(paths)
        return [path for path in paths if path in valid]

    async def root(self, links: Dict[str, str]) -> None:
        """Makes links to paths that keep these from the garbage collector; each once its path is valid.

        Failed where the store refuses one, and OSError where a link can't be made.
        """
        async with self._lock:
            for link, path in links.items():
                new = f"{link}.new"
                if os.path.islink(new):
                    os.unlink(new)
                os.symlink(path, new)
                os.replace(new, link)
            await self._daemon.keep_links(list(links))

    async def forget(self, links: Sequence[str]) -> None:
        """Has the store keep nothing of links that are gone: here where this user may, else by the daemon, which takes away
        all that it keeps of links that are gone; Failed where it can't."""
        if not links:
            return
        state = f"{self._root}/nix/var/nix" if self._root else os.environ.get("NIX_STATE_DIR", "/nix/var/nix")
        folder = f"{state}/gcroots/auto"
        if not os.access(folder, os.W_OK):
            async with self._lock:
                await self._daemon.find_roots()
            return
        for link in links:
            kept = f"{folder}/{_name_of_root(link)}"
            if os.path.islink(kept) and os.readlink(kept) == link and not os.path.lexists(link):
                os.unlink(kept)

    async def close(self) -> None:
        await self._daemon.close()
