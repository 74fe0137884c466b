"""Runs that are killed, and the same command behind that; folders that are in use, or of another run."""

import fcntl
import json
import os
import signal
import threading
import time
import unittest

from tests.stopped import Stopped
from tests.world import Ran


class Killed(Stopped):
    def test_everything(self) -> None:
        begun = self.begin()
        self.world.kill(begun)
        self.assertFalse(os.path.exists(self.world.at("out/report")))
        self.went_on(self.again())

    def test_everything_twice(self) -> None:
        for _ in range(2):
            self.world.kill(self.begin())
        self.went_on(self.again(), second_begun=3)

    def test_farm_build_alone(self) -> None:
        """What it has started ends with it, and so do the connections that its slots shared."""
        world = self.world
        begun = self.begin(ssh=True)
        begun.kill()
        begun.wait()
        world.soon(lambda: not world.processes(), "something goes on")
        self.assertTrue(world.calls("ssh", "-O", "exit"))
        self.assertFalse(os.path.lexists(os.path.join(os.readlink(world.at("out/.agents")), "pipes")))
        self.went_on(self.again())

    def test_the_program_alone(self) -> None:
        world = self.world
        begun = self.begin()
        for number in world.processes("run --agents"):
            os.kill(number, signal.SIGKILL)
        ran = world.wait(begun)
        self.ended(ran, 5)
        self.assertEqual((world.report()["interrupted"], world.counts()["built"]), ("KILL", 1))
        self.went_on(self.again())

    def test_behind_a_machine(self) -> None:
        world = self.world
        world.kill(self.begin(ssh=True))
        self.went_on(self.again())
        self.assertEqual(
            [path for _, path in world.copied() if path.endswith("-source")].count(self.world.copied()[0][1]), 1
        )

    def test_a_lease_that_was_lost_by_the_kill_has_a_cause(self) -> None:
        """A lease that was started, and whose machine isn't reached behind the kill."""
        world = self.world
        world.kill(self.begin(ssh=True))
        world.happens(
            "pings", self.uri,
            {"says": "one: Permission denied (publickey).\nerror: cannot connect to 'one'\n", "status": 1},
        )
        ran = self.again("--retries", "0")
        self.ended(ran, 1)
        self.assertIn("failed 1 lost", world.history())
        self.assertIn("Permission denied", world.report()["by_name"]["second"]["cause"])

    def test_a_line_that_is_cut_off(self) -> None:
        """A crash leaves a beginning of a line in the journal, and in the events."""
        world = self.world
        world.kill(self.begin())
        for name, words in (("journal.1", "built 1"), ("events", "17960641397")):
            with open(world.at("out/" + name), "a", encoding="ascii") as file:
                file.write(words)
        with open(world.at("out/journal.1"), "r+", encoding="ascii") as file:
            text = file.read()
            file.seek(0)
            file.truncate()
            # the stand-in of the program takes no unfinished line
            file.write(text[: -len("built 1")])
        self.went_on(self.again())

    def test_in_the_second_round(self) -> None:
        world = self.world
        root = world.drv("root")
        for name in ("one", "two"):
            world.machine(name)
        world.happens(
            "builds", "root", {"says": "error: unexpected end-of-file\n", "status": 1}, {"waits": world.at("gate")}
        )
        begun = world.begin(root, jobs=0)
        world.soon(lambda: len(world.built()) == 2)
        world.kill(begun)
        self.open_gate()
        ran = world.build(root, jobs=0)
        self.ended(ran, 0)
        self.says(ran, "build: round 2 of the run in .* goes on: 0 of 1 derivations were built in it")
        self.assertEqual(world.report()["rounds"], 2)
        self.assertIn("failed 0 lost", world.history(1))
        self.is_over()

    def test_other_bounds_are_those_of_the_new_command(self) -> None:
        self.world.kill(self.begin("--timeout", "100"))
        self.went_on(self.again("--timeout", "200", "--retries", "5", "--no-link"))
        self.assertEqual(self.world.settings_of("root")["timeout"], "200")


class Lists(Stopped):
    """Another builders list with the same folder: what is left is a next round."""

    def goes_on_elsewhere(self, ran: Ran) -> None:
        """That what the first round had built stays told, with its machine."""
        world = self.world
        self.ended(ran, 0)
        self.says(ran, r"goes on with other machines, in round 2; round 1 ends: 1 of 3 derivations were built in it")
        self.assertEqual([world.built().count(name) for name in ("first", "root")], [1, 1])
        self.assertEqual(
            world.counts(), {"total": 3, "waiting": 0, "leased": 0, "built": 3, "failed": 0, "cancelled": 0}
        )
        self.assertEqual(world.report()["rounds"], 2)
        self.assertEqual(world.bundle(2), ["second", "root"])
        self.assertIn("built 0 o", world.history(1))
        self.assertEqual([world.lines(f"out/verdict.{number}")[0].split()[0] for number in (1, 2)], ["legal", "legal"])
        self.is_over()

    def test_the_machines_are_others(self) -> None:
        world = self.world
        world.kill(self.begin())
        one = self.uri
        world.builders.clear()
        two = world.machine("two")
        self.goes_on_elsewhere(self.again())
        by_name = world.report()["by_name"]
        self.assertEqual([by_name[name]["machine"] for name in ("first", "second", "root")], [one, two, two])
        names = {
            event["pid"]: event["args"]["name"]
            for event in json.loads(world.bytes("out/trace.json")) if event["name"] == "process_name"
        }
        self.assertEqual(names, {1: f"machine 1: {one}", 2: f"machine 2: {two}"})
        lanes = {event["name"]: event["pid"] for event in json.loads(world.bytes("out/trace.json")) if event["ph"] == "X"}
        self.assertEqual([lanes[name] for name in ("first", "second", "root")], [1, 2, 2])

    def test_this_machine_s_jobs_are_others(self) -> None:
        self.world.kill(self.begin())
        self.goes_on_elsewhere(self.again(jobs=1))

    def test_one_that_is_interrupted(self) -> None:
        world = self.world
        begun = self.begin()
        os.kill(begun.pid, signal.SIGINT)
        self.ended(world.wait(begun), 130)
        world.machine("two")
        self.goes_on_elsewhere(self.again())

    def test_a_list_with_a_machine_that_is_not_there_yet(self) -> None:
        world = self.world
        world.kill(self.begin())
        later = world.machine("later", ssh=True, speed=9)
        away = {"says": "ssh: connect to host later port 22: No route to host\nerror: cannot connect\n", "status": 1}
        world.happens("pings", later, away)
        ran = self.again()
        self.goes_on_elsewhere(ran)
        self.says(ran, "down: ssh://later")

    def test_another_one_twice_and_it_is_killed_in_between(self) -> None:
        world = self.world
        world.kill(self.begin())
        world.machine("two")
        begun = self.begin()
        world.kill(begun)
        world.machine("three")
        ran = self.again()
        self.ended(ran, 0)
        self.says(ran, "goes on with other machines, in round 3; round 2 ends: 0 of 2 derivations were built in it")
        self.assertEqual((world.report()["rounds"], world.counts()["total"], world.counts()["built"]), (3, 3, 3))
        self.assertEqual(world.built().count("first"), 1)

    def test_rounds_for_what_was_lost_count_anew(self) -> None:
        world = self.world
        world.kill(self.begin())
        two = world.machine("two", speed=9)
        lost = {"says": "error: something else\n", "status": 1}
        world.happens("builds", f"root on {two}", lost)
        world.happens("builds", f"root on {self.uri}", lost, lost, {})
        ran = self.again("--retries", "1")
        self.ended(ran, 1)
        self.assertEqual(world.report()["rounds"], 3)


class Anew(Stopped):
    """What isn't gone on from."""

    def anew(self, ran: Ran, *said: str) -> None:
        self.ended(ran, 0)
        self.says(ran, *said)
        self.assertNotRegex(ran.err, "goes on:")
        self.assertEqual(self.world.report()["status"], 0)
        self.is_over()

    def test_other_words(self) -> None:
        self.world.kill(self.begin())
        self.anew(
            self.again("-k"), r"build: the run in .* was begun with other words \(keep-going\), so another one begins"
        )

    def test_other_machines(self) -> None:
        self.world.kill(self.begin())
        self.world.machine("two")
        self.anew(self.again("-k"), r"other words \(builders keep-going\)")
        self.assertEqual(self.world.built().count("first"), 1)

    def test_a_journal_that_is_none(self) -> None:
        self.world.kill(self.begin())
        with open(self.world.at("out/journal.1"), "a", encoding="ascii") as file:
            file.write("nothing\n")
        self.anew(self.again(), r"can't be gone on from, so another one begins: nix-dispatch: journal: BadLine \d+")

    def test_a_stop_of_a_fault(self) -> None:
        self.world.kill(self.begin())
        with open(self.world.at("out/journal.1"), "a", encoding="ascii") as file:
            file.write("stop\n")
        self.anew(self.again(), "was stopped by a fault, so another one begins")

    def test_a_store_that_lacks_what_was_built(self) -> None:
        self.world.kill(self.begin())
        self.world.lose(self.world.output(self.first))
        self.anew(self.again(), "had built isn't all there any more, so another one begins: .*-first")
        self.assertEqual(self.world.built().count("first"), 2)

    def test_a_file_that_is_gone(self) -> None:
        self.world.kill(self.begin())
        os.unlink(self.world.at("out/info.1"))
        self.anew(self.again(), "a file of the run in .* is gone, so another one begins")

    def test_a_bundle_that_a_stopped_machine_left_empty(self) -> None:
        self.world.kill(self.begin())
        open(self.world.at("out/bundle.1"), "w", encoding="ascii").close()
        self.anew(self.again(), "a file of the run in .* is gone, so another one begins")

    def test_a_run_that_has_ended(self) -> None:
        begun = self.begin()
        self.open_gate()
        self.ended(self.world.wait(begun), 0)
        self.anew(self.again())
        self.assertEqual(self.world.counts()["total"], 0)
        self.assertFalse(os.path.exists(self.world.at("out/bundle.1")))

    def test_where_it_cannot_be_looked_at_it_stays(self) -> None:
        world = self.world
        world.kill(self.begin())
        journal = world.bytes("out/journal.1")
        world.environment["NIX_DISPATCH"] = world.script("program", '[ "$1" = help ] || exit 7')
        ran = self.again()
        self.ended(ran, 5)
        self.says(ran, "can't be looked at")
        self.assertEqual(world.bytes("out/journal.1"), journal)
        del world.environment["NIX_DISPATCH"]
        self.went_on(self.again())


class Folders(Stopped):
    def test_only_one_uses_it(self) -> None:
        begun = self.begin()
        ran = self.world.build(self.root, jobs=0)
        self.ended(ran, 5)
        self.says(ran, "another build goes on in .*/out")
        self.assertTrue(os.path.isdir(self.world.at("out/gcroots")))
        self.open_gate()
        self.ended(self.world.wait(begun), 0)
        self.is_over()

    def test_a_journal_that_is_still_locked_is_waited_for(self) -> None:
        """The run of a build that was killed goes on for a moment."""
        world = self.world
        world.kill(self.begin())
        held = open(world.at("out/journal.1"), encoding="ascii")
        fcntl.flock(held, fcntl.LOCK_EX)
        timer = threading.Timer(1.0, held.close)
        timer.start()
        began = time.monotonic()
        self.went_on(self.again())
        self.assertGreater(time.monotonic() - began, 0.9)
        timer.join()

    def test_what_is_not_a_run_s_stays(self) -> None:
        world = self.world
        os.makedirs(world.at("out/logs"))
        for name in ("logs/mine", "mine.log", "notes"):
            open(world.at("out/" + name), "w", encoding="ascii").close()
        self.ended(world.build(world.drv("root")), 0)
        for name in ("logs/mine", "mine.log", "notes"):
            self.assertTrue(os.path.exists(world.at("out/" + name)), name)

    def test_what_lay_there_of_an_ended_run_goes(self) -> None:
        world = self.world
        root = world.drv("root")
        world.happens(
            "builds", "root", {"says": f"error: builder for '{root}' failed with exit code 3\n", "status": 100}
        )
        self.ended(world.build(root), 1)
        # the log, and the last lines of the builder
        self.assertEqual(len(os.listdir(world.at("out/logs"))), 2)
        world.lose(root)
        other = world.drv("other")
        self.ended(world.build(other), 0)
        self.assertEqual(world.report()["counts"]["total"], 1)
        self.assertFalse(os.path.exists(world.at("out/logs")) and os.listdir(world.at("out/logs")))
        self.assertNotIn("failed", [one[2] for one in world.events()])

    def test_nothing_is_left_of_the_agents(self) -> None:
        world = self.world
        before = set(os.listdir("/tmp"))
        self.ended(world.build(world.drv("root")), 0)
        with open(world.at("out/events"), encoding="ascii") as file:
            self.assertTrue(file.read())
        self.assertEqual([name for name in os.listdir(world.at("tmp")) if name.startswith("nix-dispatch.")], [])
        self.assertLessEqual(
            len([name for name in set(os.listdir("/tmp")) - before if name.startswith("nix-dispatch.")]), 64
        )


if __name__ == "__main__":
    unittest.main()
