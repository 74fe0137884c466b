"""Slots of machines that several coordinators share."""

import fcntl
import os
import unittest

from tests.world import FarmCase


def most_at_once(builds) -> int:
    """How many builds ran at once at most, by what the stand-ins have noted."""
    now = most = 0
    for build in builds:
        now += 1 if build[0] == "begin" else -1
        most = max(most, now)
    return most


class Shared(FarmCase):
    """A lease holds one of a machine's slots there."""

    def test_two_coordinators_at_once(self) -> None:
        world = self.world
        roots = [world.drv(f"drv{number}") for number in range(8)]
        for number in range(8):
            world.happens("builds", f"drv{number}", {"seconds": 0.2})
        world.machine("one", jobs=2, ssh=True)
        first = world.begin("--shared-slots", *roots[:4], jobs=0, out="first")
        ran = world.build("--shared-slots", *roots[4:], jobs=0, out="second")
        self.ended(ran, 0)
        self.ended(world.wait(first), 0)
        self.assertEqual(len(world.builds()), 8)
        self.assertLessEqual(most_at_once(world.noted("builds")), 2)

    def test_that_it_waits_is_said(self) -> None:
        world = self.world
        root = world.drv("root")
        world.machine("one", jobs=1, ssh=True)
        os.mkdir(world.at("state/slots-one"))
        with open(world.at("state/slots-one/0"), "w", encoding="ascii") as taken:
            fcntl.flock(taken, fcntl.LOCK_EX)
            begun = world.begin("--shared-slots", root, jobs=0)
            world.soon(lambda: b"waits: all slots of ssh://one.example.org are taken by others" in world.bytes("begun.err"))
            self.assertEqual(world.built(), [])
        self.ended(world.wait(begun), 0)
        self.assertEqual(world.bytes("begun.err").count(b"waits:"), 1)
        self.assertEqual(world.built(), ["root"])

    def test_a_coordinator_that_is_killed_gives_it_back(self) -> None:
        world = self.world
        first, second = world.drv("first"), world.drv("second")
        world.machine("one", jobs=1, ssh=True)
        world.happens("builds", "first", {"seconds": 200})
        begun = world.begin("--shared-slots", first, jobs=0, out="first")
        world.soon(lambda: world.built() == ["first"])
        world.kill(begun)
        self.ended(world.build("--shared-slots", second, jobs=0, out="second"), 0)

    def test_this_machine_s_slots_are_shared_too(self) -> None:
        world = self.world
        world.environment["NIX_DISPATCH_SLOTS"] = world.at("slots")
        self.ended(world.build("--shared-slots", world.drv("root")), 0)
        self.assertEqual(os.listdir(world.at("slots")), ["0"])

    def test_where_no_slot_can_be_held_the_machine_is_down(self) -> None:
        world = self.world
        world.machine("one", jobs=1, ssh=True, speed=9)
        world.machine("two", jobs=1, ssh=True)
        with open(world.at("state/slots-one"), "w", encoding="ascii"):
            pass
        ran = world.build("--shared-slots", world.drv("root"), jobs=0)
        self.ended(ran, 0)
        self.says(ran, "down: ssh://one.*: no slot can be held there: ")
        self.assertEqual(world.builds(), [("root", "two")])

    def test_it_is_not_asked_for(self) -> None:
        world = self.world
        world.machine("one", jobs=1, ssh=True)
        self.ended(world.build(world.drv("root"), jobs=0), 0)
        self.assertFalse(os.path.lexists(world.at("state/slots-one")))


if __name__ == "__main__":
    unittest.main()
