"""What farm/build makes of builders, machines and connections that fail: docs/FARM.md has them as a table."""

import os
import unittest

from tests.world import FarmCase, World

LOST = {"says": "error: unexpected end-of-file\n", "status": 1}
DENIED = {"says": "nobody@one: Permission denied (publickey).\r\nerror: cannot connect to 'one'\n", "status": 1}
REFUSED = {
    "says": "ssh: connect to host one port 22: Connection refused\r\nerror: cannot connect to 'one'\n", "status": 1
}


class Builders(FarmCase):
    """Builders that fail."""

    def fails_with(self, name, status=1, words=""):
        """What happens where a builder fails here, as Nix tells it."""
        drv = next(path for path, one in self.world.drvs.items() if one["name"] == name)
        self.world.happens(
            "builds", name,
            {"says": words + "error: builder for '" + drv + f"' failed with exit code {status}\n", "status": 100},
        )

    def test_a_failure_is_told(self) -> None:
        world = self.world
        root = world.drv("root")
        self.fails_with("root", 3, "".join(f"line {number}\n" for number in range(1, 31)))
        ran = world.build(root)
        self.ended(ran, 1)
        self.says(
            ran,
            r"(?m)^failed with status 3: root on this machine \(slot 0\.0\): builder for .* failed with exit code 3$",
            rf"the last lines of its builder, of {world.at('out/logs')}/\S*-root\.drv\.log:", r"(?m)^    line 30$",
        )
        # said once, without what Nix says around them, and named at the end
        self.assertEqual(ran.err.count("line 30"), 1)
        self.assertNotRegex(ran.err, r"(?m)^    error: ")
        self.assertRegex(ran.err, r"(?m)^0 built, 1 failed of 1\nfailed with status 3: \S*-root\.drv on this machine: .*\(log \S*\)\n\Z")
        self.assertEqual(ran.out, "")
        self.assertNotRegex(ran.err, r"(?m)^    line [1-5]$")
        self.assertEqual(world.history(), ["chosen 0 0 0", "started 0", "failed 0 status 3"])
        one = world.report()["by_name"]["root"]
        self.assertEqual(
            (one["status"], one["cause"][-1], os.path.basename(one["log"])[33:]), ("failed", "3", "root.drv.log")
        )

    def test_what_waits_is_cancelled(self) -> None:
        world = self.world
        bad, other = world.drv("bad"), world.drv("other")
        self.fails_with("bad")
        above = world.drv("above", [bad])
        self.ended(world.build(above, other), 1)
        self.assertEqual(world.counts()["failed"], 1)
        self.assertEqual(world.report()["by_name"]["above"]["status"], "cancelled")
        by_name = world.report()["by_name"]
        self.assertEqual(by_name["above"]["cause"], f"it depends on {bad}, which failed")
        self.assertEqual(by_name["other"]["cause"], f"it waited when {bad} failed")

    def test_keep_going(self) -> None:
        world = self.world
        bad = world.drv("bad")
        self.fails_with("bad")
        self.ended(world.build("-k", world.drv("above", [bad]), world.drv("other", [world.drv("below")])), 1)
        self.assertEqual(
            world.counts(), {"total": 4, "waiting": 0, "leased": 0, "built": 2, "failed": 1, "cancelled": 1}
        )

    def test_what_failed_is_not_tried_again(self) -> None:
        """A further round, for what was lost, leaves it and what depends on it out."""
        world = self.world
        bad, lost = world.drv("bad"), world.drv("lost")
        above = world.drv("above", [bad])
        self.fails_with("bad")
        world.happens("builds", "lost", LOST, {})
        self.ended(world.build("-k", above, lost), 1)
        self.assertEqual(sorted(world.built()), ["bad", "lost", "lost"])
        self.assertEqual(world.bundle(2), ["lost"])
        self.assertEqual(world.lines("out/left.2"), [bad, above])
        by_name = world.report()["by_name"]
        self.assertEqual(
            [by_name[name]["status"] for name in ("bad", "above", "lost")], ["failed", "cancelled", "built"]
        )
        self.assertEqual(world.report()["rounds"], 2)

    def test_without_keep_going_a_failure_is_the_last_round(self) -> None:
        world = self.world
        bad, lost = world.drv("bad"), world.drv("lost")
        gate = world.at("gate")
        world.happens("builds", "lost", {**LOST, "waits": gate})
        self.fails_with("bad")
        begun = world.begin(bad, lost, jobs=2)
        world.soon(lambda: any(one[2:3] == ["failed"] for one in world.events()))
        open(gate, "w", encoding="ascii").close()
        self.ended(world.wait(begun), 1)
        self.assertEqual(world.report()["rounds"], 1)

    def test_statuses_of_nix(self) -> None:
        world = self.world
        for status, words in (
            (101, "building of 'x' timed out after 2 seconds"), (102, "hash mismatch in fixed-output derivation 'x':"),
            (104, "derivation 'x' may not be deterministic"),
            (100, "output 'x' is not allowed to refer to the following paths:"),
        ):
            world.drv(f"status{status}")
            world.happens("builds", f"status{status}", {"says": f"error: {words}\n", "status": 100})
        self.ended(world.build("-k", *world.drvs), 1)
        names = world.bundle()
        for line in world.history():
            words = line.split(" ")
            if words[0] == "failed":
                self.assertEqual("".join(words[2:]), names[int(words[1])])
        self.assertEqual(world.counts()["failed"], 4)

    def test_a_failure_on_a_machine(self) -> None:
        world = self.world
        root = world.drv("root")
        uri = world.machine("one", ssh=True)
        words = f"error: build of '{root}' on '{uri}' failed: builder for '{root}' failed with exit code 7;\n"
        world.happens(
            "builds", "root", {"says": words + f"error: builder for '{root}' failed with exit code 1\n", "status": 1}
        )
        ran = world.build(root, jobs=0)
        self.ended(ran, 1)
        self.says(ran, r"failed with status 7: root on ssh://one\.example\.org \(slot 1\.0\)")
        self.assertEqual(world.history()[-1], "failed 0 status 7")

    def test_messages_of_any_encoding(self) -> None:
        world = self.world
        root = world.drv("root")
        world.happens(
            "builds", "root",
            {"says": "gru\xdf \\n \xff\xfe\n\x00\nerror: something \xe4 \\1 \x01\"new\"\n", "status": 1},
        )
        ran = world.build("--retries", "0", root)
        self.ended(ran, 1)
        one = world.report()["by_name"]["root"]
        self.assertEqual(one["cause"], 'something ? \\1 ?"new"')
        self.assertIn(["0", "0", "lost", root, "here", "something", "?", "\\1", '?"new"'], world.events())
        self.assertIn(b"gru\xdf \\n \xff\xfe\n", world.bytes("out/0.0.log"))


class Machines(FarmCase):
    """Machines and connections that fail."""

    def test_a_machine_that_refuses_the_key_is_down(self) -> None:
        world = self.world
        root = world.drv("root")
        bad = world.machine("bad", ssh=True, speed=9)
        world.machine("good", ssh=True)
        world.happens("pings", bad, DENIED)
        ran = world.build(root, jobs=0)
        self.ended(ran, 0)
        self.says(ran, r"(?m)^down: ssh://bad\.example\.org: nobody@one: Permission denied \(publickey\)\.")
        self.assertEqual(world.history()[:2], ["chosen 0 1 0", "down 0"])
        self.assertEqual(world.builds(), [("root", "good")])
        self.assertEqual(world.report()["rounds"], 1)

    def test_down_is_told_once_for_a_machine_s_slots(self) -> None:
        world = self.world
        roots = [world.drv(f"drv{number}") for number in range(4)]
        bad = world.machine("bad", jobs=4, ssh=True, speed=9)
        world.machine("good", ssh=True)
        world.happens("pings", bad, {**DENIED, "seconds": 0.3})
        ran = world.build(*roots, jobs=0)
        self.ended(ran, 0)
        self.assertEqual(ran.err.count("down: ssh://bad"), 1)
        self.assertEqual(sorted(name for name, _ in world.builds()), [f"drv{number}" for number in range(4)])

    def test_where_no_machine_is_left_it_is_nobuilder(self) -> None:
        world = self.world
        root = world.drv("root")
        bad = world.machine("bad", ssh=True)
        world.happens("pings", bad, DENIED)
        ran = world.build("--retries", "0", root, jobs=0)
        self.ended(ran, 1)
        self.assertEqual(world.history()[-1], "nobuilder 0")
        one = world.report()["by_name"]["root"]
        self.assertEqual((one["status"], one["cause"]), ("nobuilder", "each machine that may build it is down"))
        self.assertEqual(world.counts()["failed"], 1)
        self.says(ran, rf"(?m)^nobuilder: {root}: each machine that may build it is down$")

    def test_a_refused_connection_is_asked_again(self) -> None:
        world = self.world
        root = world.drv("root")
        one = world.machine("one", ssh=True)
        world.happens("pings", one, REFUSED, {})
        self.ended(world.build(root, jobs=0), 0)
        self.assertEqual(world.pings(), ["one", "one"])
        self.assertFalse([line for line in world.history() if line.startswith("down")])

    def test_a_copy_that_fails_takes_the_machine_down(self) -> None:
        world = self.world
        root = world.drv("root", sources=[world.source("source")])
        bad = world.machine("bad", ssh=True, speed=9)
        world.machine("good", ssh=True)
        world.happens("copies", bad, {"says": "error: writing to file: Broken pipe\n", "status": 1})
        ran = world.build(root, jobs=0)
        self.ended(ran, 0)
        self.assertEqual(world.builds(), [("root", "good")])
        self.assertIn("down 0", world.history())
        self.says(ran, "down: ssh://bad.*writing to file: Broken pipe")

    def test_a_copy_is_tried_three_times(self) -> None:
        """Where two slots copy one path at once, Nix 2.8 lets one of the two copies fail."""
        world = self.world
        root = world.drv("root", sources=[world.source("source")])
        one = world.machine("one", ssh=True)
        failed = {"says": "error: unexpected end-of-file\n", "status": 1}
        world.happens("copies", one, failed, failed, {})
        self.ended(world.build(root, jobs=0), 0)
        self.assertEqual(world.builds(), [("root", "one")])

    def test_a_machine_that_never_answers_is_down(self) -> None:
        """It has three times the bound on connecting."""
        world = self.world
        bad = world.machine("bad", ssh=True, speed=9)
        world.machine("good", ssh=True)
        world.happens("pings", bad, {"seconds": 100})
        ran = world.build("--connect-timeout", "3", world.drv("root"), jobs=0)
        self.ended(ran, 0)
        self.says(ran, "down: ssh://bad.*: no answer in time")
        self.assertEqual(world.builds(), [("root", "good")])
        self.is_over()

    def test_a_process_of_nix_that_is_killed(self) -> None:
        world = self.world
        root = world.drv("root", sources=[world.source("source")])
        one = world.machine("one", ssh=True)
        world.machine("two", ssh=True)
        world.happens("builds", "root", {"says": "a line\n", "kills": 9}, {})
        world.happens("copies", one, {"kills": 9}, {})
        ran = world.build(root, jobs=0)
        self.ended(ran, 0)
        self.says(ran, "lost: root on ssh://")
        self.assertEqual(world.report()["rounds"], 2)
        self.assertIn(b"a line\n", b"".join(world.bytes(f"out/{name}.0.log") for name in (1, 2)))

    def test_what_is_lost_is_built_in_another_round(self) -> None:
        world = self.world
        root = world.drv("above", [world.drv("root")])
        for name in ("one", "two"):
            world.machine(name, ssh=True)
        world.happens("builds", "root", LOST, {})
        ran = world.build(root, jobs=0)
        self.ended(ran, 0)
        self.says(ran, r"(?m)^lost: root on ssh://one\.example\.org \(slot 1\.0\): unexpected end-of-file$",
                  "build: round 2: 2 derivations are left, which didn't fail by themselves")
        self.assertIn("failed 0 lost", world.history(1))
        self.assertIn("rounds 2", world.lines("out/report"))
        self.assertEqual(world.report()["by_name"]["root"]["round"], 2)
        self.assertEqual(os.readlink(world.at("out/history")), "history.2")

    def test_retries(self) -> None:
        world = self.world
        world.happens("builds", "root", LOST)
        self.ended(world.build("--retries", "1", world.drv("root")), 1)
        self.assertEqual(world.report()["rounds"], 2)
        self.assertEqual(world.report()["by_name"]["root"]["cause"], "unexpected end-of-file")

    def test_a_machine_to_blame_in_two_rounds_gets_nothing_more(self) -> None:
        world = self.world
        root = world.drv("root")
        bad = world.machine("bad", ssh=True, speed=9)
        world.machine("good", ssh=True)
        world.happens("builds", f"root on {bad}", LOST)
        ran = world.build("--retries", "3", root, jobs=0)
        self.ended(ran, 0)
        self.says(
            ran, "build: machine 1 gets nothing more, since it was to blame in two rounds: unexpected end-of-file"
        )
        self.assertEqual([uri for _, uri in world.builds()], ["bad", "bad", "good"])
        self.assertEqual(world.report()["rounds"], 3)
        self.says(ran, "down: ssh://bad.example.org: to blame in two rounds: unexpected end-of-file")

    def test_this_machine_is_not_shut_out(self) -> None:
        """What it loses is blamed on this machine's store, and not on a machine."""
        world = self.world
        world.happens("builds", "root", LOST, LOST, {})
        self.ended(world.build(world.drv("root")), 0)
        self.assertEqual(len(world.built()), 3)

    def test_a_machine_that_lost_something_is_asked_again(self) -> None:
        world = self.world
        roots = [world.drv("first"), world.drv("second")]
        world.machine("one", ssh=True)
        world.happens("builds", "first", LOST, {})
        world.happens("builds", "second", LOST, {})
        self.ended(world.build("-k", *roots, jobs=0), 0)
        self.assertGreaterEqual(len(world.pings()), 2)

    def test_a_path_of_this_store_that_is_gone(self) -> None:
        """The machine isn't to blame, so it isn't down."""
        world = self.world
        source = world.source("source")
        first = world.drv("first", sources=[world.source("other")])
        root = world.drv("root", [first], sources=[source])
        world.machine("one", ssh=True)
        world.happens("builds", "first", {"loses": [source]})
        ran = world.build("--retries", "0", root, jobs=0)
        self.ended(ran, 1)
        self.assertIn("failed 1 lost", world.history())
        self.assertFalse([line for line in world.history() if line.startswith("down")])
        self.assertIn("source", world.report()["by_name"]["root"]["cause"])
        self.says(ran, "lost: root on ssh://one.*source")

    def test_a_damaged_path_of_this_store(self) -> None:
        """What needs it is lost, no machine is down, and what is beside it is built."""
        other = "it isn't as it was registered"
        for how, why in (("gone", "its files are gone"), ("other", other), ("shorter", other)):
            for size in (120, 5 << 20):
                with self.subTest(how=how, size=size):
                    self.world.end()
                    world = self.world = World(self)
                    source = world.source("source", size=size)
                    root, beside = world.drv("root", sources=[source]), world.drv("beside", sources=[world.source("other")])
                    for name in ("one", "two"):
                        world.machine(name, ssh=True)
                    world.damage(source, how)
                    ran = world.build("-k", "--retries", "1", root, beside, jobs=0)
                    self.ended(ran, 1)
                    asked = [call["path"] for call in world.noted("calls") if call.get("command") == "nar"]
                    self.assertEqual(source in asked, how != "shorter" and size == 120)
                    self.assertEqual(world.report()["by_name"]["beside"]["status"], "built")
                    self.says(ran, f"lost: root on ssh://.*path '{source}' is damaged in this store: {why}")
                    told = world.history(1) + world.history(2)
                    self.assertFalse([line for line in told if line.startswith("down")])

    def test_a_damaged_path_that_nix_s_hook_copies(self) -> None:
        """Also then the machine isn't to blame."""
        world = self.world
        source = world.source("source")
        root = world.drv("root", sources=[source])
        uri = world.machine("one", ssh=True)
        words = f"error: hash mismatch importing path '{source}'\n"
        world.happens("builds", f"root on {uri}", {"says": words, "status": 1, "modifies": [source]})
        ran = world.build("--retries", "0", root, jobs=0)
        self.ended(ran, 1)
        self.assertIn("lost", [words[2] for words in world.events() if "here" in words])
        self.says(ran, "lost: root on ssh://one.*is damaged in this store: it isn't as it was registered")

    def test_an_output_that_is_gone(self) -> None:
        world = self.world
        first = world.drv("first")
        root = world.drv("root", [first])
        world.make_valid(world.output(first))
        world.happens("builds", "root", {"loses": [world.output(first)]})
        self.ended(world.build(root), 0)

    def test_a_full_machine_is_lost(self) -> None:
        world = self.world
        root = world.drv("root")
        uri = world.machine("one", ssh=True, speed=9)
        world.machine("two", ssh=True)
        words = (f"error: build of '{root}' on '{uri}' failed: builder for '{root}' failed with exit code 1;\n"
                 "       note: build failure may have been caused by lack of free disk space\n"
                 f"error: builder for '{root}' failed with exit code 1\n")
        world.happens("builds", f"root on {uri}", {"says": words, "status": 1})
        ran = world.build(root, jobs=0)
        self.ended(ran, 0)
        self.says(ran, "lost: root on ssh://one.*no space left")

    def test_this_store_that_is_full_is_status_5(self) -> None:
        world = self.world
        root = world.drv("root")
        world.happens("builds", "root", {"says": "error: writing to file: No space left on device\n", "status": 1})
        ran = world.build("--retries", "0", root)
        self.ended(ran, 5)
        self.says(ran, f"the disk of {world.root} is full", "no space left here")
        self.assertEqual(world.report()["status"], 5)
        self.assertIn("failed 0 lost", world.history())


if __name__ == "__main__":
    unittest.main()
