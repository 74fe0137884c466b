"""Children that don't end by themselves, or whose pipes are held."""

import asyncio
import os
import shutil
import sys
import tempfile
import time
import unittest
from typing import Awaitable, Callable, TypeVar

from nix_farm import guard, process
from nix_farm.daemon import Daemon, Failed

_T = TypeVar("_T")


class Ends(unittest.TestCase):
    """Each wait for a child has a bound."""

    def setUp(self) -> None:
        self.folder = tempfile.mkdtemp(prefix="farm-test.")
        self.addCleanup(shutil.rmtree, self.folder, ignore_errors=True)

    def run_with(self, does: Callable[[process.Processes], Awaitable[_T]]) -> _T:
        """What is done with processes; it takes less than a minute."""

        async def go() -> _T:
            return await asyncio.wait_for(does(process.Processes(guard.Guard(), self.folder)), 60)

        return asyncio.run(go())

    def ended(self, words: str) -> "int | None":
        """The code of a child in Python that has said what it has to say, and is ended then without being read."""
        said = os.path.join(self.folder, "said")

        async def does(processes: process.Processes) -> "int | None":
            pipe = asyncio.subprocess.PIPE
            child = await processes.start([sys.executable, "-c", words, said], stdin=pipe, stdout=pipe)
            while not os.path.exists(said):
                await asyncio.sleep(0.02)
            await processes.end(child, grace=0.5)
            return child.returncode

        return self.run_with(does)

    def test_more_was_said_than_is_read(self) -> None:
        """asyncio reads no further then, and so doesn't see the end of the pipe."""
        says = "import sys, time\nsys.stdout.write('x' * (33 << 16))\nsys.stdout.flush()\nopen(sys.argv[1], 'w')\ntime.sleep(300)"
        self.assertEqual(self.ended(says), -15)

    def test_another_process_holds_the_pipes(self) -> None:
        says = "import os, sys, time\nif os.fork() == 0:\n    os.setsid()\n    open(sys.argv[1], 'w')\n    time.sleep(5)\ntime.sleep(300)"
        begun = time.monotonic()
        self.assertEqual(self.ended(says), -15)
        self.assertLess(time.monotonic() - begun, 5)

    def test_one_that_does_not_hear(self) -> None:
        says = "import signal, sys, time\nsignal.signal(15, signal.SIG_IGN)\nopen(sys.argv[1], 'w')\ntime.sleep(300)"
        self.assertEqual(self.ended(says), -9)

    def test_a_store_that_says_nothing(self) -> None:
        """It counts as one that can't be asked."""
        with open(os.path.join(self.folder, "nix-daemon"), "w", encoding="ascii") as file:
            file.write("#!/bin/sh\nexec sleep 300\n")
        os.chmod(file.name, 0o755)
        env = {**os.environ, "PATH": self.folder + os.pathsep + os.environ["PATH"]}

        async def asks(processes: process.Processes) -> None:
            asked = Daemon(processes, self.folder, env, patience=0.3)
            try:
                await asked.valid_paths(["/nix/store/x"])
            finally:
                asked._said.close()

        with self.assertRaisesRegex(Failed, "nix-daemon says nothing any more"):
            self.run_with(asks)

    def test_an_ssh_that_hangs(self) -> None:
        """The guard waits a moment for it."""
        longest, guard._LONGEST = guard._LONGEST, 0.2
        self.addCleanup(setattr, guard, "_LONGEST", longest)
        begun = time.monotonic()
        guard._run_quietly(["sleep", "300"])
        self.assertLess(time.monotonic() - begun, 60)


if __name__ == "__main__":
    unittest.main()
