"""Runs that are interrupted, and the same command behind that."""

import fcntl
import os
import signal
import subprocess
import time
import unittest

from tests.stopped import Stopped
from tests.world import Ran, read_all


class Signals(Stopped):
    def interrupted_by(self, number: int, group: bool = False) -> Ran:
        world = self.world
        begun = self.begin()
        (os.killpg if group else os.kill)(begun.pid, number)
        ran = world.wait(begun)
        name = signal.Signals(number).name[3:]
        self.ended(ran, 128 + number)
        self.assertIn("interrupted " + name, world.lines("out/report"))
        self.assertEqual((world.report()["interrupted"], world.report()["status"]), (name, 128 + number))
        self.assertEqual((world.counts()["built"], world.counts()["leased"], world.counts()["waiting"]), (1, 1, 1))
        self.assertEqual(world.history()[-1].split(" ")[0], "started")
        self.assertEqual(world.lines("out/journal.1")[1:], world.history())
        self.says(ran, "the same command with -o .*/out goes on with it")
        self.assertTrue(os.path.exists(world.at("out/.unfinished")) and os.path.isdir(world.at("out/gcroots")))
        self.assertFalse(os.path.lexists(world.at("out/.agents")))
        world.soon(lambda: not world.processes(), "something goes on")
        return ran

    def test_interrupt_at_a_terminal(self) -> None:
        self.interrupted_by(signal.SIGINT, group=True)
        self.went_on(self.again())

    def test_terminate(self) -> None:
        self.interrupted_by(signal.SIGTERM)
        self.went_on(self.again())

    def test_hang_up(self) -> None:
        self.interrupted_by(signal.SIGHUP)
        self.went_on(self.again())

    def test_twice_is_as_once(self) -> None:
        world = self.world
        begun = self.begin()
        for _ in range(3):
            try:
                os.kill(begun.pid, signal.SIGTERM)
            except ProcessLookupError:
                break
            time.sleep(0.05)
        self.ended(world.wait(begun), 143)
        self.went_on(self.again())

    def test_as_early_as_may_be(self) -> None:
        """A signal while agents start doesn't leave the run waiting for them, and the same command builds it all."""
        world = self.world
        root = world.drv("root")
        world.machine("one", jobs=3)
        for delay in (0.05, 0.15, 0.3):
            begun = world.begin(root, jobs=1)
            time.sleep(delay)
            begun.send_signal(signal.SIGTERM)
            status = world.wait(begun).status
            self.assertIn(status, (143, 0, -15), delay)
            world.soon(lambda: not world.processes(), "something goes on")
        self.ended(world.build(root, jobs=1), 0)

    def test_in_a_copy(self) -> None:
        world = self.world
        root = world.drv("root", sources=[world.source(f"source{number}") for number in range(1001)])
        uri = world.machine("one", ssh=True)
        world.happens("copies", uri, {"waits": world.at("gate")})
        begun = world.begin(root, jobs=0)
        world.soon(lambda: any(one[2:3] == ["copy"] for one in world.events()))
        begun.send_signal(signal.SIGTERM)
        self.ended(world.wait(begun), 143)
        self.assertEqual(world.history(), ["chosen 0 1 0"])
        world.soon(lambda: not world.processes(), "something goes on")
        self.open_gate()
        self.ended(world.build(root, jobs=0), 0)

    def test_behind_the_report(self) -> None:
        """It isn't status 0 then, though all is built."""
        world = self.world
        reading, writing = os.pipe()
        fcntl.fcntl(writing, 1031, 4096)  # F_SETPIPE_SZ: so what is printed, which nobody reads yet, has no room
        os.write(writing, bytes(4096))
        root = world.drv("root")
        begun = world.start(world.command([root]), writing, subprocess.DEVNULL)
        os.close(writing)
        world.soon(lambda: os.path.exists(world.at("out/report.json")))
        time.sleep(0.2)
        begun.send_signal(signal.SIGTERM)
        time.sleep(0.2)
        self.assertIn(world.output(root).encode() + b"\n", read_all(reading))
        self.assertEqual(begun.wait(300), 143)
        self.assertEqual((world.report()["status"], world.report()["counts"]["built"]), (143, 1))

    def test_what_the_agents_lost_by_it_is_cut_out(self) -> None:
        world = self.world
        self.interrupted_by(signal.SIGTERM)
        self.assertFalse([line for line in world.history() if "lost" in line or "down" in line])

    def test_a_stopped_run_is_told_by_report(self) -> None:
        """A report of the journal says how it stands, also while it goes on."""
        world = self.world
        begun = self.begin()
        command = [
            os.path.join(os.path.dirname(__file__), "stand_ins", "nix-dispatch"), "report", "--journal",
            world.at("out/journal"), "--bundle", world.at("out/bundle"), "--info", world.at("out/info"), "--jobs", "0",
            "--builders", "@" + world.at("builders"),
        ]
        self.assertIn("built 1\n", world.call(command).out)
        self.open_gate()
        self.ended(world.wait(begun), 0)


if __name__ == "__main__":
    unittest.main()
