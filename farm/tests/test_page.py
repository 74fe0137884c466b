"""The page of a run, index.html: what stands on it, and when it is put there."""

import base64
import hashlib
import json
import os
import re
import signal
import tempfile
import unittest
from typing import Any, Dict, List, Mapping, Sequence, Tuple
from unittest import mock

from nix_farm.chain import longest_chain
from nix_farm.folder import Folder
from nix_farm.history import entries
from nix_farm.logs import log_end
from nix_farm.outages import outages
from nix_farm.page import Stand, page_data, page_text
from nix_farm.pages import Pages
from nix_farm.park import Machine
from nix_farm.report import Report, RoundText, Told, Turn
from nix_farm.report_json import Sources
from nix_farm.timeline import Bar, Machines, bars
from tests.stopped import Stopped
from tests.test_modules import drv_path, notes
from tests.world import FARM, FarmCase, World

PARK = {0: Machine(0, "local", "", "", [0]), 1: Machine(1, "ssh://one", "", "", [0, 1])}


def data_of(page: bytes) -> Any:
    """The data of a page."""
    text = page.decode("utf-8")
    return json.loads(text.partition('<script type="application/json" id="data">')[2].partition("</script>")[0])


def told_of(
    text: str, lines: Sequence[str], drvs: Sequence[Tuple[str, Sequence[str]]], out: str = "/out",
    stand: Stand = Stand(1, 9000, 1), sizes: Mapping[str, int] = {},
) -> Dict[str, Any]:
    """The data of the page of one round, by its history and its events."""
    report = Report(PARK, keep_going=True)
    report.add_round(1, RoundText(drvs, entries(text.encode()), []))
    heard = notes(*lines)
    sources = Sources(Told(heard), sizes, {}, out)
    sources.parks = [PARK]
    return data_of(page_text(page_data(report, sources, heard, stand)).encode())


class Bars(unittest.TestCase):
    """The copies and builds of a timeline."""

    def bars(self, *lines: str) -> List[Bar]:
        return bars(Machines([PARK, PARK]), notes(*lines))

    def test_how_each_ended(self) -> None:
        a, b, c = map(drv_path, "abc")
        found = self.bars(
            f"10 1 0 copy 3 {a}", "15 1 0 copied 0", f"16 1 0 begin {a}", f"20 1 0 end {a} 0", f"30 1 0 begin {b}",
            f"35 1 0 end {b} 100", f"35 1 0 failed {b} 1 builder it failed", f"40 1 1 begin {c}", f"44 1 1 end {c} 1",
            f"44 1 1 lost {c} machine gone", f"50 1 1 copy 2 {b}", "52 1 1 copied 1", f"60 0 0 valid {a}",
        )
        told = [(one.kind, one.derivation, one.begin, one.end, one.how) for one in found]
        self.assertEqual(told, [
            ("copy", a, 10, 15, "ok"), ("build", a, 16, 20, "ok"), ("build", b, 30, 35, "failed"), ("build", c, 40, 44, "lost"),
            ("copy", b, 50, 52, "failed"), ("valid", a, 60, 60, "ok"),
        ])
        self.assertEqual((found[0].paths, found[0].machine, found[0].slot), (3, 1, 0))

    def test_what_goes_on(self) -> None:
        found = self.bars(f"10 1 0 copy 3 {drv_path('a')}", f"20 1 1 begin {drv_path('b')}")
        self.assertEqual([(one.end, one.how) for one in found], [(None, "running"), (None, "running")])

    def test_what_a_kill_has_cut_off(self) -> None:
        """It ends with the last that is known of the run before, and not with the one that goes on with it."""
        a = drv_path("a")
        found = self.bars("1 - - round 1 1", f"10 1 0 begin {a}", "500 - - again 1 1 0 0", f"510 1 0 begin {a}")
        self.assertEqual([(one.begin, one.end, one.how) for one in found], [(10, 10, "broken"), (510, None, "running")])

    def test_a_copy_of_which_it_is_not_said_what_it_is_for(self) -> None:
        found = self.bars("10 1 0 copy 3 -", "15 1 0 copied 0", f"16 1 0 begin {drv_path('a')}")
        self.assertEqual([one.derivation for one in found], [drv_path("a")] * 2)


class Outages(unittest.TestCase):
    """When machines were down or drained."""

    def test_down_until_the_round_s_end(self) -> None:
        heard = notes(
            "1 - - round 1 9", "5 1 0 no machine refused", "6 1 1 no machine refused", "9 - - again 1 9 0 0",
            "20 - - round 2 3", "30 1 1 no machine again",
        )
        found = outages(Machines([PARK, PARK]), heard, [], {})
        self.assertEqual([(one.machine, one.kind, one.begin, one.end, one.cause) for one in found], [
            (1, "down", 5, 20, "refused"), (1, "down", 30, None, "again")
        ])

    def test_a_lease_that_was_cut(self) -> None:
        path = drv_path("a")
        found = outages(Machines([PARK]), notes(f"5 1 1 cut {path} gone for now", f"9 1 1 resumed {path}"), [], {})
        self.assertEqual([(one.kind, one.begin, one.end, one.cause) for one in found], [("cut", 5, 9, "gone for now")])

    def test_drained_and_enabled(self) -> None:
        """A history has no times: a turn of a machine is told by the lease that had ended last before it."""
        a, b = drv_path("a"), drv_path("b")
        heard = notes("1 - - round 1 2", f"2 1 0 begin {a}", f"8 1 0 end {a} 0", f"9 0 0 begin {b}", f"20 0 0 end {b} 0")
        report = Report(PARK, keep_going=False)
        history = (
            b"nix-dispatch-history 2\nchosen 0 1 0\nstarted 0\nbuilt 0 o\ndrain 1\nchosen 1 0 0\nstarted 1\nbuilt 1 o\nenable 1\n"
        )
        report.add_round(1, RoundText([(a, []), (b, [])], entries(history), []))
        self.assertEqual(report.turns, [Turn(1, "drain", 1, a), Turn(1, "enable", 1, b)])
        found = outages(Machines([PARK]), heard, report.turns, Told(heard).times)
        self.assertEqual([(one.machine, one.kind, one.begin, one.end) for one in found], [(1, "drained", 8, 20)])
        self.assertIn("machine 1 up 0/2 ssh://one\n", report.text(1, ""))

    def test_a_drained_machine_is_down_in_the_report(self) -> None:
        report = Report(PARK, keep_going=False)
        report.add_round(1, RoundText([(drv_path("a"), [])], entries(b"nix-dispatch-history 2\ndrain 1\n"), []))
        self.assertIn("machine 1 down 0/2 ssh://one\n", report.text(1, ""))
        self.assertEqual(report.drained, {1})


class Chains(unittest.TestCase):
    """The longest chain of builds."""

    def test_the_one_that_takes_longest(self) -> None:
        drvs = [("a", []), ("b", ["a"]), ("c", []), ("d", ["b", "c"]), ("e", ["a"])]
        times = {"a": (0, 10), "b": (10, 15), "c": (0, 12), "d": (15, 20), "e": (10, 19)}
        self.assertEqual(longest_chain(drvs, times), ["a", "b", "d"])
        self.assertEqual(longest_chain(drvs, {**times, "e": (10, 40)}), ["a", "e"])

    def test_what_took_no_time_is_passed_through(self) -> None:
        drvs = [("a", []), ("b", ["a"]), ("c", ["b"])]
        self.assertEqual(longest_chain(drvs, {"a": (0, 5), "c": (6, 9)}), ["a", "c"])
        self.assertEqual(longest_chain(drvs, {}), [])
        self.assertEqual(longest_chain([], {}), [])


class Data(unittest.TestCase):
    """What stands on a page."""

    HISTORY = "head\nchosen 0 1 0\nstarted 0 /p /q\nbuilt 0 o\nchosen 1 1 1\nstarted 1\nfailed 1 status 3\n"

    def told(self, **given: Any) -> Dict[str, Any]:
        a, b, c = map(drv_path, "abc")
        lines = [
            "100 - - round 1 3", f"110 1 0 copy 2 {a}", "150 1 0 copied 0", f"160 1 0 begin {a}", f"500 1 0 end {a} 0",
            f"510 1 1 begin {b}", f"900 1 1 end {b} 100", f"900 1 1 failed {b} 3 builder it said </script><b>",
        ]
        return told_of(self.HISTORY, lines, [(a, []), (b, [a]), (c, [b])], sizes={"/p": 5, "/q": 7}, **given)

    def test_counts_derivations_and_bars(self) -> None:
        told = self.told()
        self.assertEqual(told["counts"], {"total": 3, "waiting": 0, "leased": 0, "built": 1, "failed": 1, "cancelled": 1})
        self.assertEqual([one[:2] for one in told["derivations"]], [
            [drv_path("a"), "built"], [drv_path("b"), "failed"], [drv_path("c"), "cancelled"]
        ])
        self.assertEqual(told["derivations"][0][2:8], [1, 0, 0, 160, 500, 12])
        self.assertEqual(told["uris"], ["ssh://one"])
        self.assertEqual(told["rows"], [[0, 0], [1, 0], [1, 1]])
        self.assertEqual(told["bars"], [
            [1, "copy", "ok", 110, 150, 0, 2, 12], [1, "build", "ok", 160, 500, 0, 0, None],
            [2, "build", "failed", 510, 900, 1, 0, None],
        ])
        self.assertEqual((told["chain"], told["status"], told["every"]), ([0, 1], 1, 0))

    def test_machines(self) -> None:
        local, one = self.told()["machines"]
        self.assertEqual((local["uri"], local["slots"], local["built"], local["state"]), ("local", 1, 0, "up"))
        self.assertEqual({name: one[name] for name in ("built", "failed", "lost", "copies", "busy")}, {
            "built": 1, "failed": 1, "lost": 0, "copies": 1, "busy": 730
        })

    def test_a_failure_has_the_end_of_its_log(self) -> None:
        with tempfile.TemporaryDirectory() as out:
            os.mkdir(f"{out}/logs")
            kept = f"{out}/logs/{os.path.basename(drv_path('b'))}"
            with open(f"{kept}.log", "w", encoding="utf-8") as log:
                log.write("what Nix said\n")
            with open(f"{kept}.last", "w", encoding="utf-8") as last:
                last.write("".join(f"line {number}\n" for number in range(30)) + "</script><script>taken()</script>\n")
            told = self.told(out=out)
        failure, = told["failures"]
        self.assertEqual((failure["derivation"], failure["how"], failure["behind"]), (1, "status 3", 1))
        self.assertEqual(len(failure["lines"]), 25)
        self.assertEqual(failure["lines"][-2:], ["line 29", "</script><script>taken()</script>"])
        self.assertEqual(told["derivations"][1][8], f"logs/{os.path.basename(drv_path('b'))}.log")
        self.assertEqual(told["derivations"][1][9], "it said </script><b>")

    def test_a_machine_that_is_down_in_the_end(self) -> None:
        lines = ["100 - - round 1 1", "120 1 0 no machine refused"]
        told = told_of("head\nchosen 0 1 0\ndown 0\n", lines, [(drv_path("a"), [])])
        self.assertEqual(told["machines"][1]["state"], "down")
        self.assertEqual(told["outages"], [[1, "down", 120, None, "refused"]])

    def test_a_run_that_goes_on(self) -> None:
        lines = ["100 - - round 1 1", f"110 1 0 begin {drv_path('a')}"]
        told = told_of("head\nchosen 0 1 0\nstarted 0\n", lines, [(drv_path("a"), [])], stand=Stand(1, 400, every=5))
        self.assertEqual((told["status"], told["every"], told["now"]), (None, 5, 400))
        self.assertEqual(told["bars"], [[1, "build", "running", 110, None, 0, 0, None]])
        self.assertEqual((told["machines"][1]["busy"], told["chain"]), (290, [0]))

    def test_what_was_open_when_the_run_ended(self) -> None:
        path = drv_path("a")
        lines = ["100 - - round 1 2", f"110 1 0 begin {path}", f"200 1 1 copy 3 {drv_path('b')}"]
        told = told_of("head\nchosen 0 1 0\nstarted 0\n", lines, [(path, []), (drv_path("b"), [])])
        self.assertEqual([bar[2:5] for bar in told["bars"]], [["broken", 110, 200], ["broken", 200, 200]])
        self.assertEqual([(one["lost"], one["busy"]) for one in told["machines"]], [(0, 0), (1, 90)])

    def test_a_run_with_nothing_to_build(self) -> None:
        told = told_of("", [], [])
        self.assertEqual((told["counts"]["total"], told["bars"], told["chain"], told["failures"]), (0, [], [], []))


class Text(unittest.TestCase):
    """The file."""

    def test_no_data_end_their_element(self) -> None:
        told = {"name": "</script><script>taken()</script><!--<script>", "bytes": "gru\udcff @DATA@ \u2028"}
        text = page_text(told)
        self.assertEqual(data_of(text.encode()), told)
        self.assertNotIn("taken()</", text)
        self.assertEqual(len(re.findall("<script", text)), 2)
        self.assertEqual(text.count("<!--"), 1)

    def test_one_script_alone_may_run(self) -> None:
        text = page_text({})
        script = text.partition("<script>")[2].partition("</script>")[0]
        digest = base64.b64encode(hashlib.sha256(script.encode()).digest()).decode()
        self.assertIn(f"default-src 'none'; style-src 'unsafe-inline'; script-src 'sha256-{digest}';", text)
        for word in ("innerHTML", "outerHTML", "insertAdjacent", "document.write", "eval(", "http://", "https://"):
            self.assertNotIn(word, script.replace('"http://www.w3.org/2000/svg"', ""), word)

    def test_nothing_is_asked_for(self) -> None:
        text = page_text({})
        for word in ("src=", "<link", "@import", "url("):
            self.assertNotIn(word, text)


class Logs(unittest.TestCase):
    """The ends of logs."""

    def test_what_is_shown(self) -> None:
        with tempfile.TemporaryDirectory() as out:
            os.mkdir(f"{out}/logs")
            with open(f"{out}/logs/a.drv.log", "wb") as log:
                log.write(b"\x1b[31;1mred\x1b[0m\x00 \x07\n" + b"x" * 5000 + b"\n")
            self.assertEqual(log_end(f"{out}/logs/a.drv.log"), ["red ", "x" * 1000 + " .."])
            with open(f"{out}/1.0.log", "wb") as log:
                log.write(b"of several builds\n")
            self.assertEqual(log_end(f"{out}/1.0.log"), [])
        self.assertEqual(log_end(None), [])
        self.assertEqual(log_end("/none/logs/a.drv.log"), [])


class Made(unittest.TestCase):
    """How often a page is made, and that it is no fault of the run where it isn't."""

    def test_the_more_it_costs_the_fewer_there_are(self) -> None:
        pages = Pages(iter([1.0, 1.01, 2.0, 4.0, 5.0, 5.0]).__next__)
        pages.account = mock.Mock()
        pages.show()
        self.assertEqual(pages.every, 5)
        pages.show()
        self.assertEqual(pages.every, 100)
        pages.show()
        self.assertEqual([call.args[0].every for call in pages.account.put_page.mock_calls], [5, 5, 100])

    def test_a_fault_is_said_once(self) -> None:
        pages, said = Pages(), []
        pages.account = mock.Mock()
        pages.account.put_page.side_effect = ValueError("odd")
        with mock.patch("nix_farm.pages.say", said.append), mock.patch("nix_farm.pages.write_error", said.append):
            for _ in range(3):
                pages.show()
            pages.leave(0, "")
        self.assertEqual(len(said), 2)
        self.assertIn("ValueError: odd", said[0])
        self.assertIn("the run itself goes on", said[1])

    def test_a_run_without_a_report_has_a_last_page(self) -> None:
        pages = Pages()
        pages.account = mock.Mock()
        pages.leave(5, "")
        pages.leave(0, "")
        stand, = (call.args[0] for call in pages.account.put_page.mock_calls)
        self.assertEqual((stand.status, stand.every), (5, 0))

    def test_a_disk_without_room_keeps_the_one_before(self) -> None:
        with tempfile.TemporaryDirectory() as out, tempfile.TemporaryDirectory() as shared:
            with mock.patch("nix_farm.folder.write_error"):
                folder = Folder(out, shared)
            folder.offer("index.html", b"first")
            with mock.patch("nix_farm.folder._room", return_value=1000):
                folder.offer("index.html", b"second")
            os.makedirs(f"{out}/.index.html.new/x")
            folder.offer("index.html", b"third")
            with open(f"{out}/index.html", "rb") as page:
                self.assertEqual(page.read(), b"first")
            self.assertEqual(sorted(os.listdir(out)), [".lock", "index.html"])
            self.assertFalse(folder.is_stranded)


class OfRuns(Stopped):
    """The pages of runs."""

    def page(self, world: World, out: str = "out") -> Any:
        return data_of(world.bytes(f"{out}/index.html"))

    def test_while_it_goes_on_and_at_its_end(self) -> None:
        world = self.world
        begun = self.begin()

        def counts() -> Any:
            page = world.bytes("out/index.html")
            return data_of(page)["counts"] if page else {}

        world.soon(lambda: counts().get("leased") == 1 and counts()["built"] == 1, "the page never had it")
        page = self.page(world)
        self.assertIsNone(page["status"])
        self.assertGreaterEqual(page["every"], 5)
        self.assertEqual([bar[2] for bar in page["bars"] if bar[1] == "build"], ["ok", "running"])
        self.open_gate()
        ran = world.wait(begun)
        self.ended(ran, 0)
        page = self.page(world)
        self.assertEqual((page["status"], page["every"], page["counts"]["built"]), (0, 0, 3))
        names = [world.name(page["derivations"][at][0]) for at in page["chain"]]
        self.assertEqual([name for name in names if name == "second"], ["second"])
        self.assertNotIn("index.html isn't up to date", ran.err)

    def test_behind_a_kill(self) -> None:
        """The page of a run that is gone on with has what was before."""
        world = self.world
        begun = self.begin()
        world.soon(lambda: world.bytes("out/index.html"))
        world.kill(begun)
        self.assertIsNone(self.page(world)["status"])
        self.ended(self.again(), 0)
        page = self.page(world)
        self.assertEqual((page["status"], page["counts"]["built"]), (0, 3))
        self.assertEqual([mark[1] for mark in page["marks"]], ["round", "again"])
        self.assertEqual([bar[2] for bar in page["bars"] if bar[1] == "build"].count("broken"), 1)

    def test_an_interruption(self) -> None:
        begun = self.begin()
        begun.send_signal(signal.SIGINT)
        self.ended(self.world.wait(begun), 130)
        page = self.page(self.world)
        self.assertEqual((page["status"], page["interrupted"], page["counts"]["leased"]), (130, "INT", 1))
        self.assertEqual([bar[2] for bar in page["bars"] if bar[1] == "build"][0], "ok")
        self.assertNotIn("running", [bar[2] for bar in page["bars"]])


class Refused(FarmCase):
    """A page that can't be written."""

    def test_the_run_goes_on(self) -> None:
        world = self.world
        root = world.drv("root")
        world.happens("builds", "root", {"waits": world.at("gate")})
        begun = world.begin(root)
        world.soon(lambda: world.built())
        for name in ("index.html", ".index.html.new"):
            if os.path.isfile(world.at(f"out/{name}")):
                os.unlink(world.at(f"out/{name}"))
            os.makedirs(world.at(f"out/{name}/x"))
        open(world.at("gate"), "w", encoding="ascii").close()
        ran = world.wait(begun)
        self.ended(ran, 0)
        self.assertNotIn("left in", ran.err)
        self.assertEqual(world.report()["counts"]["built"], 1)

    def test_a_run_that_ends_anew_takes_the_page_before_away(self) -> None:
        world = self.world
        root = world.drv("root")
        self.ended(world.build(root), 0)
        self.assertTrue(world.bytes("out/index.html"))
        world.dispatch["park"] = [3, "nix-dispatch: builders: BadJobs 1\n"]
        self.ended(world.build(root), 3)
        for name in ("index.html", "junit.xml"):
            self.assertFalse(os.path.lexists(world.at(f"out/{name}")), name)

    def test_the_template_is_there(self) -> None:
        self.assertTrue(os.path.isfile(os.path.join(FARM, "nix_farm", "page.html")))


if __name__ == "__main__":
    unittest.main()
