"""The report for CI services, junit.xml."""

import os
import tempfile
import unittest
import xml.etree.ElementTree as ElementTree
from typing import Any, Dict

from nix_farm.junit import junit
from tests.test_modules import drv_path
from tests.world import FarmCase


def derivation(name: str, status: str = "built", **others: Any) -> Dict[str, Any]:
    """An object as report.json has it."""
    told: Dict[str, Any] = {"derivation": drv_path(name), "status": status, "round": 1}
    told.update(dict.fromkeys(("machine", "slot", "begin", "end", "bytes", "log", "cause")))
    return {**told, **others}


class Cases(unittest.TestCase):
    """What stands in it."""

    def test_a_case_for_each_derivation(self) -> None:
        suite = ElementTree.fromstring(junit([
            derivation("a", machine="ssh://one", slot=2, begin=1_770_109_200_500, end=1_770_109_201_750),
            derivation("b", "failed", cause="it failed", begin=1_770_109_202_000, end=1_770_109_210_000),
            derivation("c", "cancelled", cause="it depends on b"), derivation("d", "nobuilder", cause="no machine"),
            derivation("e", "waiting"), derivation("f", "leased", begin=1_770_109_202_000),
        ])).find("testsuite")
        assert suite is not None
        told = {name: suite.get(name) for name in ("tests", "failures", "errors", "skipped", "time", "timestamp")}
        self.assertEqual(told, {
            "tests": "6", "failures": "2", "errors": "0", "skipped": "3", "time": "9.500", "timestamp": "2026-02-03T09:00:00"
        })
        found = [(one.get("name"), one.get("time"), [child.tag for child in one][0]) for one in suite]
        self.assertEqual(found, [
            ("a", "1.250", "system-out"), ("b", "8.000", "failure"), ("c", "0.000", "skipped"), ("d", "0.000", "failure"),
            ("e", "0.000", "skipped"), ("f", "0.000", "skipped"),
        ])
        self.assertEqual(suite[0].findtext("system-out"), f"derivation: {drv_path('a')}\nmachine: ssh://one, slot 2")
        self.assertEqual(suite[1].find("failure").attrib, {"message": "it failed", "type": "failed"})
        said = [one.find("skipped").get("message") for one in suite if one.find("skipped") is not None]
        self.assertEqual(said, ["it depends on b", "it was never begun", "it hadn't ended when the run did"])

    def test_what_xml_forbids_is_left_out(self) -> None:
        with tempfile.TemporaryDirectory() as out:
            os.mkdir(f"{out}/logs")
            log = f"{out}/logs/b.drv.log"
            with open(log, "wb") as file:
                file.write(b"".join(b"line %d\n" % number for number in range(40)))
                file.write("\x1b[31mred\x1b[0m \x00\x0b]]> <b>&amp;</b> \ufffe \U0001f600 \xe9\n".encode() + b"\xff\n")
            odd = derivation("<b>", "failed", cause='a "quoted" <cause>\x01 \udcff', log=log)
            suite = ElementTree.fromstring(junit([odd]).encode("utf-8")).find("testsuite")
        assert suite is not None
        failure = suite[0].find("failure")
        self.assertEqual(suite[0].get("name"), "<b>")
        self.assertEqual(failure.get("message"), 'a "quoted" <cause> ')
        lines = failure.text.split("\n")
        self.assertEqual(len(lines), 25)
        self.assertEqual(lines[-2:], ["red ]]> <b>&amp;</b>  \U0001f600 \xe9", "\\xff"])

    def test_names_that_several_have(self) -> None:
        other = "/nix/store/00000000000000000000000000000000-a.drv"
        suite = ElementTree.fromstring(junit([derivation("a"), {**derivation("a"), "derivation": other}])).find("testsuite")
        assert suite is not None
        self.assertEqual([one.get("name") for one in suite], [f"a ({drv_path('a')})", f"a ({other})"])

    def test_nothing_to_build(self) -> None:
        suite = ElementTree.fromstring(junit([])).find("testsuite")
        assert suite is not None
        self.assertEqual((suite.get("tests"), suite.get("time"), suite.get("timestamp")), ("0", "0.000", None))


class OfRuns(FarmCase):
    """The file of a run."""

    def test_a_failure_with_its_log(self) -> None:
        world = self.world
        bad = world.drv("bad")
        world.happens(
            "builds", "bad", {"says": f"error: builder for '{bad}' failed with exit code 3\n", "status": 100}
        )
        self.ended(world.build("-k", world.drv("above", [bad]), world.drv("beside")), 1)
        suite = ElementTree.fromstring(world.bytes("out/junit.xml")).find("testsuite")
        assert suite is not None
        kinds = {one.get("name"): [child.tag for child in one] for one in suite}
        self.assertEqual(kinds, {
            "bad": ["failure", "system-out"], "above": ["skipped", "system-out"], "beside": ["system-out"]
        })
        failure = suite.find("testcase[@name='bad']/failure")
        self.assertIn("failed with exit code 3", failure.get("message"))
        self.assertIn("failed with exit code 3", failure.text)


if __name__ == "__main__":
    unittest.main()
