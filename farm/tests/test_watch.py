"""What farm/build and farm/watch show while a run goes on."""

import os
import subprocess
import unittest

from tests.stopped import Stopped
from tests.world import FARM, read_all


class Watched(Stopped):
    """What farm/build shows on a terminal."""

    def test_a_block_that_is_written_anew(self) -> None:
        world = self.world
        root = world.drv("second", [world.drv("first")])
        world.happens("builds", "first", {"seconds": 1.5})
        command = world.command([root])
        mine, its = os.openpty()
        done = world.start(command, subprocess.DEVNULL, its)
        os.close(its)
        shown = read_all(mine).decode("latin-1")
        self.assertEqual(done.wait(300), 0)
        self.assertRegex(shown, r"built 0, leased 1, failed 0, waiting 1 of 2\r?\n +0:0[01]  builds first on this machine \(slot 0\.0\)")
        self.assertRegex(shown, r"\r\x1b\[\d+A\x1b\[Jbuilt 0, leased 1, failed 0, waiting 1 of 2")
        self.assertRegex(shown, r"built 2, leased 0, failed 0, waiting 0 of 2")
        # not more than ten a second, and one at the end
        self.assertLess(shown.count("leased"), 300)
        self.assertNotIn("1 of 2: ", shown)

    def test_from_elsewhere(self) -> None:
        """farm/watch tells what has ended by now and what ends, and ends with the run."""
        world = self.world
        begun = self.begin()
        with open(world.at("watched"), "wb") as said:
            watching = world.start([os.path.join(FARM, "watch"), world.at("out")], subprocess.DEVNULL, said)
        world.soon(lambda: b"1 of 3: built first on 1." in world.bytes("watched"))
        self.assertIsNone(watching.poll())
        self.open_gate()
        self.ended(world.wait(begun), 0)
        self.assertEqual(watching.wait(300), 0)
        self.assertIn(b"3 of 3: built root on 1.", world.bytes("watched"))

    def test_what_is_no_folder_of_a_run(self) -> None:
        ran = self.world.call([os.path.join(FARM, "watch"), self.world.at("none")])
        self.assertNotEqual(ran.status, 0)
        self.assertTrue(ran.err)


if __name__ == "__main__":
    unittest.main()
