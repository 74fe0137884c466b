"""A run that is stopped in the middle."""

import subprocess
from typing import Any

from tests.world import FarmCase, Ran



class Stopped(FarmCase):
    """A graph whose `first` is built by the time that a run is stopped, and whose `second` waits for a file, `gate`."""

    def begin(self, *words: Any, ssh: bool = False, out: str = "out") -> "subprocess.Popen[bytes]":
        world = self.world
        if not world.drvs:
            self.first = world.drv("first", sources=[world.source("source")])
            self.second = world.drv("second", [self.first])
            self.root = world.drv("root", [self.second])
            self.uri = world.machine("one", jobs=2, ssh=ssh)
            world.happens("builds", "second", {"waits": world.at("gate")})
        before = world.built().count("second")
        begun = world.begin(*words, self.root, jobs=0, out=out)
        world.soon(lambda: world.built().count("second") > before, "the second was never begun")
        return begun

    def open_gate(self) -> None:
        open(self.world.at("gate"), "w", encoding="ascii").close()

    def again(self, *words: Any, jobs: int = 0) -> Ran:
        self.open_gate()
        return self.world.build(*words, self.root, jobs=jobs)

    def went_on(self, ran: Ran, second_begun: int = 2) -> None:
        """That the run was gone on with, and what had ended wasn't done again."""
        world = self.world
        self.ended(ran, 0)
        self.says(ran, "build: round 1 of the run in .* goes on: 1 of 3 derivations were built in it")
        self.assertEqual([world.built().count(name) for name in ("first", "second", "root")], [1, second_begun, 1])
        self.assertEqual(
            world.counts(), {"total": 3, "waiting": 0, "leased": 0, "built": 3, "failed": 0, "cancelled": 0}
        )
        self.assertEqual((world.report()["rounds"], world.report()["interrupted"]), (1, None))
        self.assertEqual(len([line for line in world.history() if line.startswith("built 0")]), 1)
        self.assertIn(["-", "-", "again", "1", "3", "1", "0"], world.events())
        self.is_over()
