"""`farm/status`: how a run stands, from its folder alone; and what farm/build says at its beginning and end."""

import os
import unittest

from tests.stopped import Stopped
from tests.world import FARM, FarmCase


class Status(Stopped):
    """A run that goes on, one that was killed, and one that has ended."""

    def status(self, out: str = "out") -> str:
        ran = self.world.call([os.path.join(FARM, "status"), self.world.at(out)])
        self.ended(ran, 0)
        return ran.out

    def test_while_it_goes_on(self) -> None:
        begun = self.begin()
        lines = self.status().splitlines()
        self.assertRegex(lines[0], r"/out: goes on, in round 1 since \d{4}-\d\d-\d\d \d\d:\d\d:\d\d$")
        self.assertEqual(lines[1], "1 built, 1 leased, 1 waiting of 3")
        self.assertRegex(lines[2], r"^ +0:\d\d  builds second on .*/one \(slot 1\.\d\)$")
        self.open_gate()
        self.ended(self.world.wait(begun), 0)
        self.assertEqual(self.status(), f"{self.world.at('out')}: ended with status 0\n3 built of 3\n")

    def test_behind_a_kill(self) -> None:
        self.world.kill(self.begin())
        lines = self.status().splitlines()
        self.assertRegex(lines[0], "isn't finished: it was interrupted or killed, and the same command")
        self.assertEqual(lines[1:], ["1 built, 1 leased, 1 waiting of 3"])

    def test_failures(self) -> None:
        world = self.world
        bad = world.drv("bad")
        other = world.drv("other", system="aarch64-linux")
        world.happens(
            "builds", "bad", {"says": f"error: builder for '{bad}' failed with exit code 3\n", "status": 100}
        )
        ran = world.build("-k", world.drv("above", [bad]), other)
        self.ended(ran, 1)
        said = self.status()
        self.assertIn("ended with status 1\n0 built, 2 failed, 1 cancelled of 3\n", said)
        self.assertRegex(said, rf"(?m)^failed: {bad} on this machine: builder for .* failed with exit code 3 \(log \S+\)$")
        self.assertRegex(said, rf"(?m)^nobuilder: {other}: no machine has the system aarch64-linux$")

    def test_what_is_no_folder_of_a_run(self) -> None:
        ran = self.world.call([os.path.join(FARM, "status"), self.world.folder])
        self.ended(ran, 5)
        self.assertIn("is no folder of a run", ran.err)
        self.ended(self.world.call([os.path.join(FARM, "status")]), 2)
        self.assertIn("nix-dispatch status FOLDER", self.world.call([os.path.join(FARM, "status"), "--help"]).out)


class Said(FarmCase):
    """What farm/build says where."""

    def test_standard_output_has_the_paths_alone(self) -> None:
        world = self.world
        roots = [world.drv("first"), world.drv("second", outputs=["out", "dev"])]
        ran = world.build(*roots)
        self.ended(ran, 0)
        self.assertEqual(ran.out.splitlines(), [
            world.output(roots[0]), world.output(roots[1], "dev"), world.output(roots[1])
        ])
        self.assertTrue(ran.err.endswith("\n2 built of 2\n"), ran.err)
        self.assertIn("total 2", world.lines("out/report"))

    def test_nobuilder_is_said_before_the_first_build(self) -> None:
        world = self.world
        other = world.drv("other", features="kvm")
        ran = world.build("-k", "--features", "", other, world.drv("root"))
        self.ended(ran, 1)
        told = f"nobuilder: other: no machine with the system x86_64-linux has the feature kvm ({other})\n"
        self.assertLess(ran.err.index(told), ran.err.index("built root"))

    def test_failures_stand_at_the_end(self) -> None:
        world = self.world
        bad = world.drv("bad")
        above = world.drv("above", [world.drv("between", [bad])])
        world.happens(
            "builds", "bad", {"says": f"error: builder for '{bad}' failed with exit code 3\n", "status": 100}
        )
        ran = world.build("-k", above, world.drv("beside"))
        self.ended(ran, 1)
        end = ran.err[ran.err.index("1 built, 1 failed, 2 cancelled of 4\n") :].splitlines()
        self.assertEqual(len(end), 2)
        self.assertRegex(end[1], rf"^failed with status 3: {bad} on this machine: .*; 2 that depend on it are cancelled \(log")
        self.assertEqual(world.report()["by_name"]["above"]["cause"], f"it depends on {bad}, which failed")


if __name__ == "__main__":
    unittest.main()
