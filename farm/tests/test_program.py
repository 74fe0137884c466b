"""Runs with the real `nix-dispatch`, where it was built: what its stand-in doesn't do, and a bit of what it does."""

import os
import shutil
import signal
import unittest

from tests.world import FARM, FarmCase

BUILT = os.path.join(os.path.dirname(FARM), "crates", "nix_dispatch", "out", "nix_dispatch")
PROGRAM = os.environ.get("NIX_DISPATCH") or (BUILT if os.path.exists(BUILT) else None)


@unittest.skipUnless(PROGRAM and shutil.which(PROGRAM), "there is no nix-dispatch: ./build makes it")
class Program(FarmCase):
    def setUp(self) -> None:
        super().setUp()
        self.world.environment["NIX_DISPATCH"] = os.path.abspath(PROGRAM or "")

    def test_a_graph_on_two_machines(self) -> None:
        world = self.world
        source = world.source("source")
        layer = [world.drv(f"first{number}", sources=[source], refs={"out": [source]}) for number in range(4)]
        root = world.drv("root", layer, refs={"out": [source]})
        for name in ("one", "two"):
            world.machine(name, jobs=2, ssh=True)
        self.ended(world.build(root, jobs=1), 0)
        self.assertEqual(sorted(world.built()), sorted(["root", *(f"first{number}" for number in range(4))]))
        self.assertEqual(world.lines("out/verdict.1"), [f"legal {len(world.history())}"])
        self.is_over()

    def test_references_that_may_not_be(self) -> None:
        world = self.world
        root = world.drv("root", refs={"out": [world.source("elsewhere")]})
        self.ended(world.build(root), 1)
        self.assertEqual(world.history()[-1], "failed 0 references")
        one = world.report()["by_name"]["root"]
        self.assertEqual((one["status"], one["cause"]), ("failed", "it refers to what it may not refer to"))

    def test_paths_that_are_not_those_of_their_texts(self) -> None:
        ran = self.world.build("--check-paths", self.world.drv("root"))
        self.ended(ran, 3)
        self.says(ran, "drvs: WrongPath 1", "the paths are refused")

    def test_a_builders_list_that_is_refused(self) -> None:
        world = self.world
        world.builders.append("ssh://one x86_64-linux - many")
        ran = world.build(world.drv("root"))
        self.ended(ran, 3)
        self.says(ran, "the park is refused")

    def test_a_lost_build_and_a_kill(self) -> None:
        world = self.world
        first = world.drv("first")
        root = world.drv("root", [world.drv("second", [first])])
        world.machine("one", ssh=True)
        world.happens("builds", "first", {"says": "error: unexpected end-of-file\n", "status": 1}, {})
        world.happens("builds", "second", {"waits": world.at("gate")}, {})
        begun = world.begin(root, jobs=0)
        world.soon(lambda: "second" in world.built())
        world.kill(begun)
        ran = world.build(root, jobs=0)
        self.ended(ran, 0)
        self.says(ran, "round 2 of the run in .* goes on: 1 of 3 derivations were built in it")
        self.assertEqual([world.built().count(name) for name in ("first", "second", "root")], [2, 2, 1])
        self.is_over()

    def test_the_program_is_killed(self) -> None:
        world = self.world
        root = world.drv("root", [world.drv("first")])
        world.happens("builds", "root", {"waits": world.at("gate")}, {})
        begun = world.begin(root)
        world.soon(lambda: "root" in world.built())
        for number in world.processes("run --agents"):
            os.kill(number, signal.SIGKILL)
        self.ended(world.wait(begun), 5)
        self.ended(world.build(root), 0)
        self.assertEqual(world.built().count("first"), 1)
        self.is_over()


if __name__ == "__main__":
    unittest.main()
