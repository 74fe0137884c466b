"""What Nix is asked for a graph, the bundle and the info text; and `farm/gather`."""

import asyncio
import os
import shutil
import sys
import tempfile
from typing import Dict, Iterable, List, Optional, Sequence

from . import guard
from .cut import Cut, NotInGraph, cut
from .derivation import Derivation, read_bundle, read_line
from .folder import write_out
from .process import Ended, Processes, watch_children_by_descriptor
from .settings import NIX

# The status of a command line that isn't understood.
_USAGE = 2


class NotGathered(Exception):
    """A graph that can't be gathered, and what Nix said."""

    def __init__(self, said: str) -> None:
        super().__init__(said.rstrip("\n"))


def _checked(ended: Ended) -> Ended:
    if ended.status != 0:
        raise NotGathered(ended.said.decode(errors="replace"))
    return ended


class Store:
    """A store that is asked by Nix's commands: the one of NIX_REMOTE, whose paths lie below a folder, or of `env`."""

    def __init__(self, processes: Processes, folder: str, env: Optional[Dict[str, str]] = None) -> None:
        self._processes = processes
        self._folder = folder
        self._env = env

    async def requisites(self, paths: Sequence[str]) -> List[str]:
        """The closure of paths, each behind what it refers to where that is one command's."""
        words = ["nix-store", "--query", "--requisites"]
        return _checked(await self._processes.run_over(words, paths, self._env)).lines

    async def invalid(self, paths: Sequence[str]) -> List[str]:
        """Those of the paths that aren't valid."""
        words = ["nix-store", "--check-validity", "--print-invalid"]
        return _checked(await self._processes.run_over(words, paths, self._env)).lines if paths else []

    async def references(self, paths: Sequence[str]) -> str:
        """The info text of valid paths: a line for each, the path and what it refers to."""
        dump = _checked(await self._processes.run_over(["nix-store", "--dump-db"], paths, self._env)).lines
        lines = []
        at = 0
        while at + 4 < len(dump):
            # a path, its hash, its size, its deriver, a count, and as many references
            end = at + 5 + int(dump[at + 4])
            lines.append(" ".join([dump[at], *dump[at + 5 : end]]) + "\n")
            at = end
        return "".join(lines)

    async def sizes(self, paths: Sequence[str]) -> Dict[str, int]:
        """The sizes of paths as NAR, in bytes; none where they can't all be told."""
        ended = await self._processes.run_over(["nix-store", "--query", "--size"], paths, self._env)
        if ended.status != 0 or len(ended.lines) != len(paths):
            return {}
        return {path: int(size) for path, size in zip(paths, ended.lines)}

    def read(self, path: str) -> Derivation:
        """A derivation of the store; NotGathered where it can't be read."""
        file = self._folder + path
        try:
            with open(file, encoding="utf-8", errors="surrogateescape", newline="\n") as text:
                return read_line(f"{path} {text.readline()}")
        except (OSError, ValueError) as error:
            raise NotGathered(f"gather: cannot read {file}") from error

    async def graph(self, roots: Sequence[str]) -> List[Derivation]:
        """All derivations below the roots, each behind its inputs."""
        return [self.read(path) for path in await self.requisites(roots) if path.endswith(".drv")]

    async def needed(self, drvs: Sequence[Derivation], roots: Sequence[str], failed: Iterable[str]) -> Cut:
        """What of a graph is still to be built."""
        outputs = [path for drv in drvs for path in drv.output_paths]
        try:
            return cut(drvs, roots, set(await self.invalid(outputs)), set(failed))
        except NotInGraph as error:
            raise NotGathered(f"cut: {error}") from error

    async def info(self, sources: Iterable[str]) -> str:
        """The info text of the closure of sources."""
        paths = sorted(sources)
        return await self.references(sorted(set(await self.requisites(paths)))) if paths else ""


class _Words:
    """The command line of farm/gather."""

    def __init__(self, words: Sequence[str]) -> None:
        self.out, self.store, self.failed = "", os.environ.get("NIX_REMOTE", ""), os.devnull
        self.needed = False
        left = list(words)
        while left and left[0].startswith("-"):
            word = left.pop(0)
            if word == "--needed":
                self.needed = True
            elif word in ("-o", "--store", "--failed") and left:
                setattr(self, {"-o": "out"}.get(word, word[2:]), left.pop(0))
            else:
                raise ValueError(word)
        self.roots = left
        if not self.out or not left:
            raise ValueError("no OUT or no ROOT.drv")


def _write(folder: str, name: str, text: str) -> None:
    """Puts a file into a folder, whole."""
    new = os.path.join(folder, f".{name}.new")
    with open(new, "w", encoding="utf-8", errors="surrogateescape", newline="\n") as file:
        file.write(text)
    os.replace(new, os.path.join(folder, name))


def _read(folder: str, name: str) -> str:
    with open(os.path.join(folder, name), encoding="utf-8", errors="surrogateescape", newline="\n") as file:
        return file.read()


async def _gather_needed(store: Store, words: _Words) -> None:
    if not os.path.exists(os.path.join(words.out, "all")):
        _write(words.out, "all", "".join(drv.line() for drv in await store.graph(words.roots)))
    drvs = read_bundle(_read(words.out, "all"))
    failed = [line for line in _read("", words.failed).split("\n") if line]
    found = await store.needed(drvs, words.roots, failed)
    _write(words.out, "info", await store.info(found.sources))
    _write(words.out, "left", "".join(path + "\n" for path in found.left))
    _write(words.out, "cut", f"{found.stops}\n")
    _write(words.out, "sources", "".join(path + "\n" for path in sorted(found.sources)))
    _write(words.out, "bundle", found.bundle)


async def _gather(words: _Words, work: str) -> None:
    watch_children_by_descriptor()
    ends = guard.Guard()
    ends.start(work)
    try:
        processes = Processes(ends, work)
        os.makedirs(words.out, exist_ok=True)
        name, folder = words.store, ""
        if name.startswith("/"):
            folder = name
        elif name not in ("", "auto", "daemon", "local"):
            folder = os.path.join(work, "store")
            copy = [*NIX, "copy", "--derivation", "--no-check-sigs", "--from", name, "--to", folder]
            _checked(await processes.run([*copy, *words.roots]))
            name = folder
        store = Store(processes, folder, {**os.environ, "NIX_REMOTE": name})
        if words.needed:
            await _gather_needed(store, words)
            return
        paths = await store.requisites(words.roots)
        drvs = [store.read(path) for path in paths if path.endswith(".drv")]
        _write(words.out, "bundle", "".join(drv.line() for drv in drvs))
        sources = [path for path in paths if not path.endswith(".drv")]
        _write(words.out, "info", await store.references(sources) if sources else "")
    finally:
        ends.stop()


def main(arguments: Sequence[str], page: str) -> int:
    """`farm/gather`: its status."""
    if arguments[:1] in (["-h"], ["--help"]):
        write_out(page.strip("\n") + "\n")
        return 0
    try:
        words = _Words(arguments)
    except ValueError:
        print("usage: nix-dispatch gather [--store STORE] [--needed [--failed FILE]] -o OUT ROOT.drv ..", file=sys.stderr)
        return _USAGE
    work = tempfile.mkdtemp(prefix="nix-dispatch.")
    try:
        asyncio.run(_gather(words, work))
    except (NotGathered, OSError) as error:
        print(error, file=sys.stderr)
        return 1
    except KeyboardInterrupt:
        return 130
    finally:
        for folder, _, _ in os.walk(work):
            os.chmod(folder, 0o700)
        shutil.rmtree(work, ignore_errors=True)
    return 0
