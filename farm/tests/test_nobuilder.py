"""Why no machine may build a derivation."""

import unittest
from typing import Dict

from tests.world import FarmCase

LOST = {"says": "error: unexpected end-of-file\n", "status": 1}


class NoBuilder(FarmCase):
    """Why no machine may build a derivation."""

    def causes(self, *drvs: str, jobs: int = 0) -> Dict[str, str]:
        ran = self.world.build("-k", *drvs, jobs=jobs)
        self.ended(ran, 1)
        return {
            name: one["cause"] for name, one in self.world.report()["by_name"].items() if one["status"] == "nobuilder"
        }

    def test_the_system(self) -> None:
        world = self.world
        world.machine("one")
        causes = self.causes(world.drv("root", system="aarch64-linux"))
        self.assertEqual(causes, {"root": "no machine has the system aarch64-linux"})

    def test_the_feature(self) -> None:
        world = self.world
        world.machine("one", features="big")
        causes = self.causes(world.drv("root", features="big kvm"))
        self.assertEqual(causes, {"root": "no machine with the system x86_64-linux has the feature kvm"})

    def test_a_mandatory_feature(self) -> None:
        world = self.world
        world.machine("one", mandatory="slow")
        causes = self.causes(world.drv("root"))
        cause = "each machine with the system x86_64-linux and its features is for builds alone that require slow"
        self.assertEqual(causes, {"root": cause})

    def test_features_that_no_machine_has_together(self) -> None:
        world = self.world
        world.machine("one", features="kvm")
        world.machine("two", features="big")
        causes = self.causes(world.drv("root", features="kvm big"))
        self.assertEqual(causes, {"root": "no machine with the system x86_64-linux has all of the features kvm,big"})

    def test_no_slot_at_all(self) -> None:
        causes = self.causes(self.world.drv("root"))
        self.assertEqual(causes, {"root": "no machine has the system x86_64-linux"})

    def test_a_machine_without_jobs_has_nothing(self) -> None:
        world = self.world
        world.machine("one", jobs=0, systems="aarch64-linux")
        self.assertEqual(
            self.causes(world.drv("root", system="aarch64-linux")), {"root": "no machine has the system aarch64-linux"}
        )

    def test_what_is_beside_it_is_built(self) -> None:
        world = self.world
        causes = self.causes(world.drv("root", system="aarch64-linux"), world.drv("other"), jobs=1)
        self.assertEqual(list(causes), ["root"])
        self.assertEqual(world.built(), ["other"])

    def test_what_never_may_is_no_reason_for_a_round(self) -> None:
        world = self.world
        world.happens("builds", "lost", LOST, {})
        self.ended(world.build("-k", world.drv("never", system="aarch64-linux"), world.drv("lost")), 1)
        self.assertEqual(world.bundle(2), ["lost"])
        self.assertEqual(world.report()["by_name"]["never"]["status"], "nobuilder")


if __name__ == "__main__":
    unittest.main()
