"""What farm/gather makes of a graph."""

import os
import unittest
from typing import Any

from tests.world import FARM, FarmCase, Ran


class Gathered(FarmCase):
    """farm/gather."""

    def gather(self, *words: Any) -> Ran:
        return self.world.call([os.path.join(FARM, "gather"), "-o", self.world.at("made"), *words])

    def test_the_whole_graph(self) -> None:
        world = self.world
        below = world.source("below")
        above = world.source("above", [below])
        first = world.drv("first", sources=[above])
        last = world.drv("last", [first])
        self.ended(self.gather(last), 0)
        lines = world.lines("made/bundle")
        self.assertEqual([line.split(" ", 1)[0] for line in lines], [first, last])
        self.assertTrue(lines[0].split(" ", 1)[1].startswith('Derive([("out","'))
        self.assertEqual(sorted(world.lines("made/info")), sorted([f"{above} {below}", below]))

    def test_no_sources(self) -> None:
        self.ended(self.gather(self.world.drv("first")), 0)
        self.assertEqual(self.world.bytes("made/info"), b"")

    def test_what_is_needed(self) -> None:
        world = self.world
        first = world.drv("first", sources=[world.source("source")])
        world.make_valid(world.output(first))
        bad = world.drv("bad")
        last = world.drv("last", [first])
        above = world.drv("above", [bad])
        with open(world.at("failed"), "w", encoding="ascii") as file:
            file.write(bad + "\n")
        self.ended(self.gather("--needed", "--failed", world.at("failed"), last, above), 0)
        self.assertEqual([line.split(" ")[0] for line in world.lines("made/bundle")], [last])
        self.assertEqual(world.lines("made/left"), [bad, above])
        self.assertEqual(len(world.lines("made/all")), 4)
        self.assertIn(f'],[],["{world.output(first)}"],', world.lines("made/bundle")[0])

    def test_a_store_in_another_folder(self) -> None:
        world = self.world
        first = world.drv("first")
        world.environment["NIX_REMOTE"] = "/nowhere"
        self.ended(self.gather("--store", world.root, first), 0)
        self.assertEqual(len(world.lines("made/bundle")), 1)

    def test_where_nix_fails_nothing_is_made(self) -> None:
        world = self.world
        first = world.drv("first", sources=[world.source("source")])
        world.lose(world.paths[first][0])
        ran = self.gather(first)
        self.assertNotEqual(ran.status, 0)
        self.says(ran, "source' is not valid")
        self.assertFalse(world.bytes("made/info"))

    def test_words(self) -> None:
        for words in ([], ["--none", "x.drv"], ["--store"]):
            self.ended(self.gather(*words), 2)
        ran = self.world.call([os.path.join(FARM, "gather"), "--help"])
        self.ended(ran, 0)
        self.assertIn("nix-dispatch gather [--store STORE]", ran.out)


if __name__ == "__main__":
    unittest.main()
