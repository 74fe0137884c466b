"""What a run leaves among a store's roots."""

import glob
import os
import unittest

from nix_farm import here
from tests.world import FarmCase


class Roots(FarmCase):
    """Automatic roots: those of the results, and no other."""

    def autos(self):
        """What the store keeps: where each leads to, below the world's folder."""
        world = self.world
        start = len(world.folder) + 1
        return sorted(os.readlink(one)[start:] for one in glob.glob(os.path.join(world.root, "nix/var/nix/gcroots/auto/*")))

    def setUp(self) -> None:
        super().setUp()
        os.makedirs(os.path.join(self.world.root, "nix/var/nix/gcroots/auto"))

    def test_no_stale_roots_are_left(self) -> None:
        world = self.world
        gate = world.at("gate")
        world.happens("builds", "root", {"waits": gate})
        begun = world.begin(world.drv("root", [world.drv("below")], sources=[world.source("source")]))
        world.soon(lambda: world.built()[-1:] == ["root"])
        self.assertGreater(len([one for one in self.autos() if one.startswith("out/gcroots/")]), 3)
        open(gate, "w", encoding="ascii").close()
        self.ended(world.wait(begun), 0)
        self.assertEqual(self.autos(), ["out/result"])
        self.assertEqual(world.noted("calls")[-1]["command"] == "roots", False)

    def test_what_another_run_has_left_goes(self) -> None:
        world = self.world
        first, second = world.drv("first"), world.drv("second")
        self.ended(world.build(first, second), 0)
        self.assertEqual(self.autos(), ["out/result", "out/result-1"])
        self.ended(world.build(first), 0)
        self.assertEqual(self.autos(), ["out/result"])

    def test_what_is_no_link_of_the_run_stays(self) -> None:
        world = self.world
        os.symlink("/elsewhere", os.path.join(world.root, "nix/var/nix/gcroots/auto/x"))
        self.ended(world.build(world.drv("first")), 0)
        self.assertEqual(len(glob.glob(os.path.join(world.root, "nix/var/nix/gcroots/auto/*"))), 2)

    def test_where_this_user_may_not_the_daemon_looks(self) -> None:
        world = self.world
        os.rmdir(os.path.join(world.root, "nix/var/nix/gcroots/auto"))
        self.ended(world.build(world.drv("first")), 0)
        self.assertEqual([one["command"] for one in world.noted("calls")].count("roots"), 1)

    def test_a_root_that_is_given_twice(self) -> None:
        world = self.world
        root = world.drv("root")
        os.symlink(root, world.at("link.drv"))
        ran = world.build(root, world.at("link.drv"), root)
        self.ended(ran, 0)
        self.assertEqual(ran.out.splitlines().count(world.output(root)), 1)
        self.assertEqual(self.autos(), ["out/result"])
        self.assertFalse(os.path.lexists(world.at("out/result-1")))


class Names(unittest.TestCase):
    def test_the_name_of_a_root_is_nix_s(self) -> None:
        self.assertEqual(here._name_of_root("/tmp/tmp.JeQtSaADDm/link"), "nisican5hw9bpm5vz93q1lq8zzribj2d")


if __name__ == "__main__":
    unittest.main()
