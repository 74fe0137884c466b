"""What farm/build makes of a graph where all goes well: what is built, copied, cut away, and in which order."""

import json
import os
import subprocess
import unittest

from tests.world import FARM, FarmCase


class Graphs(FarmCase):
    def test_a_chain_here(self) -> None:
        world = self.world
        first = world.drv("first", sources=[world.source("source")])
        last = world.drv("last", [world.drv("middle", [first])])
        ran = world.build(last)
        self.ended(ran, 0)
        self.assertEqual(world.builds(), [("first", "local"), ("middle", "local"), ("last", "local")])
        self.assertEqual(
            world.counts(), {"total": 3, "waiting": 0, "leased": 0, "built": 3, "failed": 0, "cancelled": 0}
        )
        self.assertEqual(ran.out.splitlines()[-1], world.output(last))
        self.assertEqual(os.readlink(world.at("out/result")), world.output(last))
        self.assertEqual(world.copied(), [])
        self.is_over()

    def test_a_machine_gets_what_it_lacks_once(self) -> None:
        world = self.world
        source, tool = world.source("source"), world.source("tool")
        first = world.drv("first", sources=[source])
        last = world.drv("last", [first], sources=[source, tool])
        world.machine("one")
        self.ended(world.build(last, jobs=0), 0)
        self.assertEqual(world.builds(), [("first", "one"), ("last", "one")])
        self.assertEqual(world.copied(), [("one", source), ("one", tool)])

    def test_a_copy_names_the_closure_of_the_sources(self) -> None:
        world = self.world
        below = world.source("below")
        above = world.source("above", [below])
        world.machine("one")
        self.ended(world.build(world.drv("first", sources=[above]), jobs=0), 0)
        self.assertEqual(sorted(world.copied()), sorted([("one", above), ("one", below)]))

    def test_more_than_a_thousand_paths_are_copied_in_parts(self) -> None:
        world = self.world
        sources = [world.source(f"source{number}") for number in range(1001)]
        world.machine("one")
        self.ended(world.build(world.drv("first", sources=sources), jobs=0), 0)
        self.assertEqual(sorted(path for _, path in world.copied()), sorted(sources))

    def test_what_is_large_is_copied_too(self) -> None:
        world = self.world
        sources = [world.source("large", size=20 << 20), world.source("small", size=120)]
        world.machine("one", ssh=True)
        self.ended(world.build(world.drv("root", sources=sources), jobs=0), 0)
        self.assertEqual(sorted(path for _, path in world.copied()), sorted(sources))
        self.assertEqual(world.report()["by_name"]["root"]["bytes"], (20 << 20) + 120)

    def test_a_second_machine_gets_what_it_lacks_too(self) -> None:
        world = self.world
        source = world.source("source")
        roots = [world.drv(f"drv{number}", sources=[source]) for number in range(2)]
        for name in ("one", "two"):
            world.machine(name)
        for root in roots:
            world.happens("builds", world.drvs[root]["name"], {"seconds": 0.3})
        self.ended(world.build(*roots, jobs=0), 0)
        self.assertEqual(sorted(world.copied()), [("one", source), ("two", source)])

    def test_the_longest_chain_comes_first(self) -> None:
        world = self.world
        short = [world.drv(f"short{number}") for number in range(3)]
        chain = world.drv("chain0")
        for number in range(1, 4):
            chain = world.drv(f"chain{number}", [chain])
        self.ended(world.build(world.drv("top", [*short, chain])), 0)
        order = world.bundle()
        self.assertEqual(order[:2], ["chain0", "chain1"])
        self.assertEqual(order[-2:], ["chain3", "top"] if order[-2] == "chain3" else [order[-2], "top"])
        self.assertLess(order.index("chain2"), min(order.index(f"short{number}") for number in range(3)))

    def test_what_is_valid_is_not_built(self) -> None:
        world = self.world
        tool = world.drv("tool")
        middle = world.drv("middle", [tool])
        world.make_valid(world.output(middle))
        ran = world.build(world.drv("top", [middle]))
        self.ended(ran, 0)
        self.assertEqual(world.built(), ["top"])
        self.says(
            ran, "build: 1 of 3 derivations are to be built: the others are valid, or there only to build what is"
        )

    def test_what_is_valid_stands_as_a_source(self) -> None:
        world = self.world
        runtime = world.source("runtime")
        middle = world.drv("middle", sources=[runtime], refs={"out": [runtime]})
        world.make_valid(world.output(middle))
        world.machine("one")
        self.ended(world.build(world.drv("top", [middle]), jobs=0), 0)
        line = world.lines("out/bundle.1")[0]
        self.assertIn(f'],[],["{world.output(middle)}"],"x86_64-linux"', line)
        self.assertEqual(sorted(world.lines("out/info.1")), sorted([f"{world.output(middle)} {runtime}", runtime]))
        self.assertEqual(sorted(path for _, path in world.copied()), sorted([runtime, world.output(middle)]))

    def test_all_valid_builds_nothing(self) -> None:
        world = self.world
        root = world.drv("root")
        world.make_valid(world.output(root))
        world.machine("one")
        ran = world.build(root, jobs=0)
        self.ended(ran, 0)
        self.assertEqual(world.counts()["total"], 0)
        self.assertEqual(world.report()["rounds"], 0)
        self.assertEqual(ran.out.splitlines()[-1], world.output(root))
        self.assertEqual((world.copied(), world.pings(), world.calls("nix-dispatch", "run")), ([], [], []))
        for name in ("trace.json", "bundle.1", "journal.1"):
            self.assertFalse(os.path.lexists(world.at("out/" + name)), name)
        self.is_over()

    def test_a_part_of_the_outputs_is_not_enough(self) -> None:
        world = self.world
        root = world.drv("root", outputs=["out", "dev"])
        world.make_valid(world.output(root))
        self.ended(world.build(root), 0)
        self.assertEqual(world.built(), ["root"])
        self.assertTrue(world.is_valid(world.output(root, "dev")))

    def test_what_became_valid_meanwhile_is_not_built(self) -> None:
        """Another build has made it by the time that its turn comes."""
        world = self.world
        first, second = world.drv("first"), world.drv("second")
        root = world.drv("root", [first, second])
        world.machine("one")
        gate = world.at("gate")
        world.happens("builds", "first", {"waits": gate})
        world.happens("builds", "second", {"waits": gate})
        begun = world.begin(root, jobs=0)
        waiting = world.soon(lambda: world.built())
        other = second if waiting[0] == "first" else first
        world.make_valid(world.output(other))
        open(gate, "w", encoding="ascii").close()
        self.ended(world.wait(begun), 0)
        self.assertEqual(len(world.built()), 2)
        self.assertIn(["1", "0", "valid", other], world.events())
        self.assertEqual(world.counts()["built"], 3)

    def test_the_outputs_of_several_roots(self) -> None:
        world = self.world
        one, two = world.drv("one", outputs=["out", "dev"]), world.drv("two")
        ran = world.build(one, two)
        self.ended(ran, 0)
        made = [*world.drvs[one]["outputs"].values(), world.output(two)]
        self.assertEqual(ran.out.splitlines()[-3:], made)
        self.assertEqual([os.readlink(world.at(f"out/{name}")) for name in ("result", "result-1", "result-2")], made)

    def test_no_link(self) -> None:
        world = self.world
        self.ended(world.build("--no-link", world.drv("root")), 0)
        self.assertFalse(os.path.lexists(world.at("out/result")))

    def test_the_history_is_that_of_the_run(self) -> None:
        world = self.world
        source = world.source("source")
        first = world.drv("first", sources=[source], refs={"out": [source]})
        world.machine("one", ssh=True)
        self.ended(world.build(first, jobs=0), 0)
        self.assertEqual(world.history(), ["chosen 0 1 0", f"started 0 {source}", f"built 0 o {source}"])
        self.assertRegex(world.bytes("out/verdict.1").decode(), r"^legal 3$")
        for name in ("bundle", "info", "history", "verdict", "journal"):
            self.assertEqual(os.readlink(world.at("out/" + name)), name + ".1")

    def test_the_events_and_the_log_of_a_slot(self) -> None:
        world = self.world
        source = world.source("source")
        first = world.drv("first", sources=[source])
        world.machine("one")
        world.happens("builds", "first", {"says": "a line of the log\n"})
        self.ended(world.build(first, jobs=0), 0)
        self.assertEqual(
            world.events(),
            [
                ["-", "-", "round", "1", "1"], ["1", "0", "copy", "1", first], ["1", "0", "copied", "0"],
                ["1", "0", "begin", first], ["1", "0", "end", first, "0"],
            ],
        )
        log = world.bytes("out/1.0.log").decode()
        self.assertRegex(
            log, rf"(?ms)^\d+ copy 1 {first}\n.*^\d+ copied 0\n\d+ begin {first}\n.*a line of the log\n.*\d+ end {first} 0\n$"
        )

    def test_report_json(self) -> None:
        world = self.world
        source = world.source("source", size=5000)
        world.drv("first", sources=[source])
        world.machine("one", ssh=True)
        self.ended(world.build(world.drv("second", sources=[source]), jobs=0), 0)
        said = world.report()
        self.assertEqual((said["status"], said["interrupted"], said["rounds"]), (0, None, 1))
        one = said["by_name"]["second"]
        self.assertEqual(
            (one["status"], one["round"], one["machine"], one["slot"], one["bytes"], one["cause"]),
            ("built", 1, "ssh://one.example.org", 0, 5000, None),
        )
        self.assertEqual(one["log"], world.at("out/1.0.log"))
        self.assertLessEqual(one["begin"], one["end"])
        form = os.path.join(os.path.dirname(FARM), "checks", "bad-day", "form.py")
        if os.path.exists(form):
            subprocess.run(["python3", form, world.at("out/report.json"), "1"], check=True)

    def test_trace_json(self) -> None:
        world = self.world
        world.machine("one", jobs=2)
        self.ended(world.build(world.drv("first", sources=[world.source("source")]), jobs=0), 0)
        trace = json.loads(world.bytes("out/trace.json"))
        self.assertEqual([one["args"]["name"] for one in trace if one["ph"] == "M"].count("slot 1"), 1)
        self.assertEqual([one["name"] for one in trace if one["ph"] == "X"], ["copy for first", "first"])
        for one in trace:
            self.assertEqual(one["pid"], 1)

    def test_a_machine_is_asked_once_for_its_slots(self) -> None:
        world = self.world
        roots = [world.drv(f"drv{number}") for number in range(8)]
        world.machine("one", jobs=8, ssh=True)
        for root in roots:
            world.happens("builds", world.drvs[root]["name"], {"seconds": 0.2})
        self.ended(world.build(*roots, jobs=0), 0)
        self.assertEqual(world.pings(), ["one"])

    def test_slots_build_side_by_side(self) -> None:
        world = self.world
        roots = [world.drv(f"drv{number}") for number in range(3)]
        gate = world.at("gate")
        for root in roots:
            world.happens("builds", world.drvs[root]["name"], {"waits": gate})
        begun = world.begin(*roots, jobs=3)
        world.soon(lambda: len(world.built()) == 3, "not all of them were begun")
        open(gate, "w", encoding="ascii").close()
        self.ended(world.wait(begun), 0)

    def test_what_each_round_is_built_from_is_rooted(self) -> None:
        world = self.world
        source = world.source("source")
        first = world.drv("first", sources=[source])
        gate = world.at("gate")
        world.happens("builds", "first", {"waits": gate})
        begun = world.begin(first)
        world.soon(lambda: world.built())
        folder = world.at("out/gcroots")
        led = {os.readlink(os.path.join(folder, name)) for name in os.listdir(folder)}
        self.assertLessEqual({first, source, world.output(first)}, led)
        open(gate, "w", encoding="ascii").close()
        self.ended(world.wait(begun), 0)
        self.is_over()

    def test_this_machine_s_settings(self) -> None:
        world = self.world
        world.settings.update({"extra-platforms": "i686-linux", "system-features": "kvm big", "max-jobs": "2"})
        roots = [world.drv("old", system="i686-linux"), world.drv("wants", features="kvm")]
        self.ended(world.build(*roots, jobs=None), 0)
        self.assertEqual(world.lines("out/park"), ["0 0 local - -", "0 1 local - -"])

    def test_nix_s_builders_list(self) -> None:
        world = self.world
        world.machine("one")
        world.save()
        world.settings["builders"] = "@" + world.at("builders")
        command = [os.path.join(FARM, "build"), "-o", world.at("out"), "--jobs", "0", world.drv("root")]
        self.ended(world.call(command), 0)
        self.assertEqual(world.builds(), [("root", "one")])

    def test_the_folder_s_name_is_said_first(self) -> None:
        world = self.world
        ran = world.build("--no-link", world.drv("root"), out=None)
        self.ended(ran, 0)
        self.assertRegex(ran.err, r"^/\S+\n")
        self.assertTrue(os.path.isfile(os.path.join(ran.err.splitlines()[0], "report.json")))

    def test_ended_builds_are_told(self) -> None:
        world = self.world
        ran = world.build(world.drv("second", [world.drv("first")]))
        self.says(ran, r"(?m)^1 of 2: built first on 0\.0$", r"(?m)^2 of 2: built second on 0\.0$")


if __name__ == "__main__":
    unittest.main()
