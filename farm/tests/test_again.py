"""Leases that are cut short, and go on on the same machine."""

import unittest

from nix_farm.again import was_cut
from nix_farm.blame import Fault
from tests.world import FarmCase

LOST = {"says": "error: unexpected end-of-file\n", "status": 1}
AWAY = {"says": "ssh: connect to host one port 22: No route to host\r\nerror: cannot connect to 'one'\n", "status": 1}


class Again(FarmCase):
    """A machine is asked again before what it had is lost."""

    def test_a_build_goes_on_where_the_machine_answers_again(self) -> None:
        world = self.world
        above = world.drv("above", [world.drv("root")])
        one = world.machine("one", ssh=True)
        world.happens("builds", "root", LOST, {})
        world.happens("pings", one, {}, AWAY, {})
        ran = world.build("--reconnect", "60", above, jobs=0)
        self.ended(ran, 0)
        self.says(ran, r"(?m)^cut: root on ssh://one.*\(slot 1\.0\): unexpected end-of-file; the machine is asked again$",
                  r"(?m)^resumed: root on ssh://one")
        self.assertEqual(world.history(), [
            "chosen 0 1 0", "started 0", "built 0 o", "chosen 1 1 0", "started 1", "built 1 o"
        ])
        self.assertEqual(world.report()["rounds"], 1)
        begun = [words[2] for words in world.events() if words[2] in ("begin", "end", "cut", "resumed")]
        self.assertEqual(begun, ["begin", "cut", "resumed", "end", "begin", "end"])

    def test_a_machine_that_stays_away_has_lost_it(self) -> None:
        world = self.world
        root = world.drv("root")
        bad = world.machine("bad", ssh=True, speed=9)
        world.machine("good", ssh=True)
        world.happens("builds", f"root on {bad}", LOST)
        world.happens("pings", bad, {}, AWAY)
        ran = world.build("--reconnect", "3", root, jobs=0)
        self.ended(ran, 0)
        self.says(ran, "cut: root on ssh://bad", "lost: root on ssh://bad.*unexpected end-of-file")
        self.assertEqual(world.history(1)[:3], ["chosen 0 1 0", "started 0", "failed 0 lost"])
        self.assertEqual(world.report()["by_name"]["root"]["machine"], "ssh://good.example.org")

    def test_a_copy_goes_on_too(self) -> None:
        world = self.world
        root = world.drv("root", sources=[world.source("source")])
        one = world.machine("one", ssh=True)
        world.happens("copies", one, LOST, LOST, LOST, {})
        ran = world.build("--reconnect", "60", root, jobs=0)
        self.ended(ran, 0)
        self.says(ran, "cut: root on ssh://one", "resumed: root on ssh://one")
        self.assertFalse([line for line in world.history() if line.startswith("down")])

    def test_a_machine_that_was_there_is_waited_for(self) -> None:
        """A lease that begins while others are cut isn't refused."""
        world = self.world
        first, second = world.drv("first"), world.drv("second", [world.drv("before")])
        one = world.machine("one", jobs=2, ssh=True)
        world.happens("builds", "first", LOST, {})
        world.happens("builds", "before", {"seconds": 1}, {})
        world.happens("pings", one, {}, AWAY, AWAY, {})
        ran = world.build("--reconnect", "60", first, second, jobs=0)
        self.ended(ran, 0)
        self.assertFalse([line for line in world.history() if line.startswith("down")])
        self.assertEqual(world.report()["rounds"], 1)

    def test_what_is_no_cut_is_lost_at_once(self) -> None:
        world = self.world
        root = world.drv("root")
        bad = world.machine("bad", ssh=True, speed=9)
        world.machine("good", ssh=True)
        world.happens("builds", f"root on {bad}", {"says": "error: something else\n", "status": 1})
        ran = world.build("--reconnect", "60", root, jobs=0)
        self.ended(ran, 0)
        self.assertNotIn("cut:", ran.err)

    def test_a_machine_that_is_never_there_is_down(self) -> None:
        world = self.world
        bad = world.machine("bad", ssh=True, speed=9)
        world.machine("good", ssh=True)
        world.happens("pings", bad, AWAY)
        ran = world.build("--reconnect", "60", world.drv("root"), jobs=0)
        self.ended(ran, 0)
        self.says(ran, "down: ssh://bad.*No route to host")


class Cuts(unittest.TestCase):
    def test_which_faults_are_cuts(self) -> None:
        for cause in (
            "unexpected end-of-file", "Connection to one closed by remote host.", "Timeout, server one not responding.",
            "the machine doesn't answer any more: nothing was heard of the build, and its Nix was asked twice",
        ):
            self.assertTrue(was_cut(Fault("lost", "machine", cause)), cause)
            self.assertFalse(was_cut(Fault("lost", "here", cause)), cause)
        for cause in ("no space left on the machine: x", "builder for 'x' failed due to signal 9 (Killed)", "Permission denied"):
            self.assertFalse(was_cut(Fault("lost", "machine", cause)), cause)


if __name__ == "__main__":
    unittest.main()
