"""`nix-dispatch`: where it is, and what it is asked for."""

import os
import shutil
import subprocess
from typing import List, Sequence

from .errors import GivenUp
from .process import Ended, Processes

# The most bytes of a history that an audit reads.
AUDIT_LIMIT = 64 << 20


def find_program(farm: str) -> str:
    """The program: the one that NIX_DISPATCH names, else the one in the path, else that of the farm's own command.

    GivenUp where there is none.
    """
    program = os.environ.get("NIX_DISPATCH") or shutil.which("nix-dispatch")
    program = program or os.path.join(farm, "bin", "nix-dispatch")
    if not shutil.which(program):
        raise GivenUp(5, f"there is no {program}: ./build makes it")
    # farm/bin/nix-dispatch is there also while the program isn't
    nothing = subprocess.DEVNULL
    try:
        works = subprocess.run([program, "help"], stdin=nothing, stdout=nothing, stderr=nothing, check=False).returncode == 0
    except OSError:
        works = False
    if not works:
        raise GivenUp(5, f"{program} doesn't run: ./build makes it")
    return program


class Program:
    """The program, with the words that it is given of the park."""

    def __init__(self, path: str, processes: Processes, words: Sequence[str]) -> None:
        self._path = path
        self._processes = processes
        self._words = list(words)

    def with_words(self, words: Sequence[str]) -> "Program":
        """The program with other words of a park."""
        return Program(self._path, self._processes, words)

    async def _run(self, command: str, *words: str) -> Ended:
        return await self._processes.run([self._path, command, *words, *self._words])

    async def park(self) -> Ended:
        return await self._run("park")

    async def check_paths(self, bundle: str) -> Ended:
        return await self._run("ask", "--check-paths", "--bundle", bundle)

    async def report(self, bundle: str, info: str, journal: str) -> Ended:
        return await self._run("report", "--bundle", bundle, "--info", info, "--journal", journal)

    async def audit(self, bundle: str, info: str, history: str) -> Ended:
        return await self._run("audit", "--bundle", bundle, "--info", info, "--history", history)

    def run_words(self, pipes: str, bundle: str, info: str, journal: str) -> List[str]:
        """The command that runs a bundle on the agents' pipes, with a journal that is gone on from where it is there."""
        resume = ["--resume"] if os.path.lexists(journal) else []
        files = ["--agents", pipes, "--bundle", bundle, "--info", info, "--journal", journal]
        return [self._path, "run", *files, *self._words, *resume]
