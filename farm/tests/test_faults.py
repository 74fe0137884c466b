"""What farm/build makes of a program and of files that fail, and of folders and words with odd bytes."""

import json
import os
import shutil
import signal
import unittest

from tests.world import FARM, FarmCase


class Faults(FarmCase):
    """The program fails, and so do files."""

    def test_a_run_that_a_fault_has_ended(self) -> None:
        world = self.world
        world.dispatch["faults"] = 2
        ran = world.build(world.drv("root"))
        self.ended(ran, 5)
        self.assertEqual(world.report()["status"], 5)

    def test_a_run_that_is_killed(self) -> None:
        world = self.world
        world.dispatch["kills"] = [4, int(signal.SIGKILL)]
        ran = world.build(world.drv("above", [world.drv("root")]))
        self.ended(ran, 5)
        self.says(ran, "nix-dispatch was ended by the signal KILL")
        self.assertIn("interrupted KILL", world.lines("out/report"))
        self.assertEqual(
            (world.report()["interrupted"], world.counts()["built"], world.counts()["leased"]), ("KILL", 1, 1)
        )
        self.assertTrue(os.path.exists(world.at("out/.unfinished")))

    def test_a_run_that_is_ended_by_a_signal(self) -> None:
        world = self.world
        world.dispatch["kills"] = [4, int(signal.SIGTERM)]
        ran = world.build(world.drv("above", [world.drv("root")]))
        self.ended(ran, 143)
        self.assertIn("interrupted TERM", world.lines("out/report"))

    def test_a_history_of_more_than_an_audit_reads(self) -> None:
        """It isn't audited, and that is no fault of the run."""
        world = self.world
        lines = (
            "import sys", f"sys.path.insert(0, {FARM!r})", "from nix_farm.build import main",
            "for one in list(sys.modules.values()):", "    if hasattr(one, 'AUDIT_LIMIT'):",
            "        one.AUDIT_LIMIT = 30", "sys.exit(main(sys.argv[1:], ''))",
        )
        ran = world.call([world.at("bin/python3"), "-c", "\n".join(lines), *world.command([world.drv("root")])[1:]])
        self.ended(ran, 0)
        self.says(ran, "the history of round 1 has more than the 64 MiB that an audit reads, so it isn't audited")
        self.assertEqual(world.lines("out/verdict.1"), ["not audited: the history has more than 64 MiB"])
        self.assertEqual(world.calls("nix-dispatch", "audit"), [])

    def test_a_park_of_many_slots_has_the_open_files_that_it_needs(self) -> None:
        world = self.world
        command = world.command([world.drv("root")], jobs=60)
        ran = world.call(["sh", "-c", 'ulimit -S -n 64; exec "$@"', "sh", *command])
        self.ended(ran, 0)
        self.assertEqual(len(world.lines("out/park")), 60)

    def test_a_folder_that_cannot_be_made(self) -> None:
        world = self.world
        open(world.at("file"), "w", encoding="ascii").close()
        ran = world.build(world.drv("root"), out="file/run")
        self.ended(ran, 5)
        self.says(ran, "the folder .*file/run can't be made")

    @unittest.skipUnless(os.path.isdir("/proc/self/fd"), "there is no /proc")
    def test_a_folder_that_cannot_be_written_to(self) -> None:
        ran = self.world.build(self.world.drv("root"), out="/proc/self/task")
        self.ended(ran, 5)
        self.says(ran, "can't be (written to|made)")

    def test_a_file_that_cannot_be_put_into_the_folder(self) -> None:
        world = self.world
        root = world.drv("root")
        gate = world.at("gate")
        world.happens("builds", "root", {"waits": gate})
        begun = world.begin(root)
        world.soon(lambda: world.built())
        for name in ("report.json", ".report.json.new"):
            os.makedirs(world.at(f"out/{name}/x"))
        open(gate, "w", encoding="ascii").close()
        ran = world.wait(begun)
        self.ended(ran, 5)
        self.says(ran, "report.json is left in ")
        left = ran.err.split("report.json is left in ")[1].split("\n")[0]
        self.addCleanup(shutil.rmtree, os.path.dirname(left))
        with open(left, encoding="ascii") as file:
            self.assertEqual(json.load(file)["counts"]["built"], 1)
        self.assertTrue(world.is_valid(world.output(root)))

    def test_nobody_reads_what_is_said(self) -> None:
        world = self.world
        reading, writing = os.pipe()
        os.close(reading)
        begun = world.start(world.command([world.drv("root")]), writing, writing)
        os.close(writing)
        self.assertEqual(begun.wait(300), 0)
        self.assertEqual(world.report()["counts"]["built"], 1)


class Odd(FarmCase):
    """Folders and words with odd bytes."""

    def test_a_folder_with_blanks_and_quotes(self) -> None:
        world = self.world
        name = "out of 'one' \"two\" $x \\n *"
        world.machine("one")
        self.ended(world.build(world.drv("root", sources=[world.source("source")]), jobs=0, out=name), 0)
        self.assertEqual(os.readlink(world.at(f"{name}/result")), world.output(world.drv("root")))
        self.assertEqual(world.report(name)["by_name"]["root"]["log"], world.at(f"{name}/1.0.log"))

    def test_a_folder_of_another_encoding(self) -> None:
        world = self.world
        name = b"out-gru\xdf-\xc3\xa9"
        self.ended(world.build(world.drv("root"), out=name), 0)
        folder = os.path.join(os.fsencode(world.folder), name)
        self.assertIn(b"report.json", os.listdir(folder))
        with open(os.path.join(folder, b"report.json"), encoding="ascii") as file:
            self.assertEqual(json.load(file)["counts"]["built"], 1)

    def test_the_locale_of_a_service(self) -> None:
        world = self.world
        world.environment.update({"LC_ALL": "C", "LANG": "C", "PYTHONCOERCECLOCALE": "0", "PYTHONUTF8": "0"})
        world.happens("builds", "root", {"says": "gru\xc3\x9f \xff\nerror: unexpected \xc3\xa9\n", "status": 1}, {})
        self.ended(world.build(world.drv("root"), out=b"out-\xc3\xa9"), 0)


if __name__ == "__main__":
    unittest.main()
