"""What the farm's modules make of texts: derivations, graphs, histories, events, reports and timelines."""

import json
import os
import tempfile
import unittest
from typing import Dict, List, Sequence, Tuple

from nix_farm.chosen import Chosen
from nix_farm.cut import NotInGraph, cut
from nix_farm.derivation import Derivation, name_of, read_bundle, read_line
from nix_farm.display import Display, last_lines, lasted
from nix_farm.events import Note, read_events, read_note
from nix_farm.history import before_interruption, built_outputs, entries, has_stop, lost_something, whole_lines
from nix_farm.park import Machine, Place, places, read_park
from nix_farm.report import Report, RoundText
from nix_farm.rounds import to_blame_twice
from nix_farm.trace import trace
from tests.world import store_path


def drv_path(name: str) -> str:
    return store_path(f"{name}.drv")


def drv(
    name: str, inputs: Sequence[str] = (), sources: Sequence[str] = (), rest: str = '"x86_64-linux","/bin/sh",[],[]'
) -> Derivation:
    """A derivation by its text, which needs the output `out` of these inputs."""
    told = ",".join(f'("{drv_path(one)}",["out"])' for one in inputs)
    listed = ",".join(f'"{one}"' for one in sources)
    return read_line(f'{drv_path(name)} Derive([("out","{store_path(name)}","","")],[{told}],[{listed}],{rest})')


def notes(*lines: str) -> List[Note]:
    found = [read_note(line) for line in lines]
    return [note for note in found if note is not None]


class Derivations(unittest.TestCase):
    def test_the_parts_of_a_text(self) -> None:
        text = (
            'Derive([("dev","/nix/store/a-dev","",""),("out","/nix/store/a","r:sha256","00")],'
            '[("/nix/store/b.drv",["dev","out"]),("/nix/store/c.drv",["out"])],["/nix/store/d","/nix/store/e"],'
            '"i686-linux","/bin/sh",["],["],[("x","],[\\"")])'
        )
        one = read_line("/nix/store/a.drv " + text)
        self.assertEqual(one.outputs, [("dev", "/nix/store/a-dev"), ("out", "/nix/store/a")])
        self.assertEqual(one.inputs, [("/nix/store/b.drv", ["dev", "out"]), ("/nix/store/c.drv", ["out"])])
        self.assertEqual((one.sources, one.platform), (["/nix/store/d", "/nix/store/e"], "i686-linux"))
        self.assertEqual(one.recut(one.inputs, one.sources), text)
        self.assertEqual(one.line(), f"/nix/store/a.drv {text}\n")

    def test_features(self) -> None:
        plain = drv("a", rest='"x86_64-linux","/bin/sh",[],[("requiredSystemFeatures","kvm \tbig")]')
        self.assertEqual(plain.features, ["kvm", "big"])
        structured = '[("__json","{\\"requiredSystemFeatures\\":[\\"kvm\\",\\"big\\"],\\"x\\":1}")]'
        self.assertEqual(drv("a", rest=f'"x86_64-linux","/bin/sh",[],{structured}').features, ["kvm", "big"])
        self.assertEqual(drv("a").features, [])

    def test_what_is_no_text(self) -> None:
        for text in ("", "x", "Derive([],[],[]", "Derive([("):
            with self.assertRaises(ValueError):
                read_line(f"/nix/store/a.drv {text}")

    def test_names(self) -> None:
        self.assertEqual(name_of(drv_path("a-1.0")), "a-1.0")


class Cuts(unittest.TestCase):
    def test_an_unknown_root(self) -> None:
        with self.assertRaises(NotInGraph):
            cut([drv("a")], [drv_path("b")], [], [])

    def test_what_hangs_on_what_is_valid_is_not_looked_at(self) -> None:
        drvs = [drv("tool"), drv("middle", ["tool"]), drv("top", ["middle"])]
        found = cut(drvs, [drv_path("top")], {store_path("tool"), store_path("top")}, [])
        self.assertEqual((found.paths, found.stops), ([drv_path("top")], 1))
        self.assertEqual(found.sources, {store_path("middle")})

    def test_sources_rise_and_stand_once(self) -> None:
        low, high = sorted(store_path(name) for name in ("x", "y"))
        drvs = [drv("a"), drv("b", ["a"], [low, high])]
        found = cut(drvs, [drv_path("b")], {store_path("b")}, [])
        sources = read_bundle(found.bundle)[0].sources
        self.assertEqual(sources, sorted({low, high, store_path("a")}))

    def test_what_failed_bars_what_depends_on_it(self) -> None:
        drvs = [drv("a"), drv("b", ["a"]), drv("c")]
        invalid = {store_path(name) for name in "abc"}
        found = cut(drvs, [drv_path("b"), drv_path("c")], invalid, [drv_path("a")])
        self.assertEqual((found.left, found.paths), ([drv_path("a"), drv_path("b")], [drv_path("c")]))


class Histories(unittest.TestCase):
    def test_a_line_that_is_cut_off(self) -> None:
        self.assertEqual(whole_lines(b"head\nchosen 0 0 0\nbuilt"), b"head\nchosen 0 0 0\n")
        self.assertEqual(whole_lines(b"head"), b"")

    def test_a_stop(self) -> None:
        self.assertTrue(has_stop(b"head\nstop\n"))
        self.assertFalse(has_stop(b"head\nchosen 0 0 0\n"))

    def test_what_another_round_may_bring(self) -> None:
        for line, is_one in (
            ("down 0", True), ("failed 0 lost", True), ("failed 0 memory", True), ("failed 0 noworker", True),
            ("failed 0 status 3", False), ("failed 0 references", False), ("nobuilder 0", False), ("built 0 o", False),
        ):
            self.assertEqual(lost_something(f"head\n{line}\n".encode()), is_one, line)

    def test_what_was_built(self) -> None:
        self.assertEqual(built_outputs(b"head\nbuilt 1 o\nfailed 0 lost\n", [drv("a"), drv("b")]), [store_path("b")])

    def test_an_interruption_is_cut_out(self) -> None:
        """What an agent had noted before it stays."""
        lines = [
            "head", "chosen 0 1 0", "down 0", "chosen 0 2 0", "started 0", "chosen 1 2 1", "failed 0 lost", "down 1"
        ]
        text = "".join(line + "\n" for line in lines).encode()
        paths = [drv_path("a"), drv_path("b")]
        told = notes("1 - - round 1 2", "2 1 0 no machine refused", f"3 2 0 lost {paths[0]} machine gone")
        self.assertEqual(before_interruption(text, paths, told, 1), b"\n".join(text.split(b"\n")[:7]) + b"\n")
        by_user = notes(
            "1 - - round 1 2", "2 1 0 no machine refused", f"3 2 0 lost {paths[0]} here interrupted by the user"
        )
        self.assertEqual(len(entries(before_interruption(text, paths, by_user, 1))), 6)
        self.assertEqual(len(entries(before_interruption(text, paths, [], 1))), 2)


class Events(unittest.TestCase):
    def test_what_a_full_disk_has_left_of_a_line(self) -> None:
        for line in (
            "", "1 0", "1 0 0", "1 0 0 begin", "1 0 0 end /x", "1 0 0 lost /x here", "1 0 0 no machine",
            "x 0 0 begin /x",
        ):
            self.assertIsNone(read_note(line), line)

    def test_a_file_that_is_gone(self) -> None:
        self.assertEqual(read_events("/none/events"), [])

    def test_who_is_to_blame_in_two_rounds(self) -> None:
        """Once in each of two rounds, and not twice in one; this machine's store never is."""
        told = notes(
            "1 - - round 1 3", "1 1 0 no machine first", "1 1 1 no machine first", "1 2 0 lost /x machine gone",
            "1 3 0 lost /x here full", "2 - - round 2 3", "2 1 0 lost /x machine second", "2 3 0 lost /x here full",
            "3 - - round 3 3",
        )
        self.assertEqual(to_blame_twice(told, 3), {1: "second"})
        self.assertEqual(to_blame_twice(told, 2), {})
        other = notes("3 - - list 3", "3 - - round 3 3", "3 1 0 lost /x machine third", "4 - - round 4 3")
        self.assertEqual(to_blame_twice([*told[:-1], *other], 4), {})


class Parks(unittest.TestCase):
    def test_the_slots_and_the_uris(self) -> None:
        machines = read_park("0 0 local - -\n1 0 big?x=y /key HOST\n1 1 big?x=y /key HOST\n2 0 ssh://small - -\n")
        self.assertEqual([str(place) for place in places(machines)], ["0.0", "1.0", "1.1", "2.0"])
        self.assertEqual(machines[1].keyed, "big?x=y&ssh-key=/key&base64-ssh-public-host-key=HOST")
        self.assertEqual(machines[2].keyed, "ssh://small")
        self.assertEqual(machines[2].builders("x86_64-linux", "kvm"), "ssh://small x86_64-linux - 1 1 kvm - -")


class Reports(unittest.TestCase):
    def report(self, *rounds: RoundText, keep_going: bool = False) -> Report:
        report = Report({0: Machine(0, "local", "", "", [0])}, keep_going)
        for number, one in enumerate(rounds, 1):
            report.add_round(number, one)
        return report

    def test_statuses(self) -> None:
        drvs = [("a", []), ("b", ["a"]), ("c", []), ("d", [])]
        history = entries(
            b"head\nchosen 0 0 0\nstarted 0\nfailed 0 status 3\nchosen 2 0 0\nstarted 2\nbuilt 2 o\nnobuilder 3\n"
        )
        report = self.report(RoundText(drvs, history, []), keep_going=True)
        self.assertEqual([one.status for one in report.standing.values()], ["failed", "cancelled", "built", "failed"])
        self.assertEqual(
            report.counts(), {"total": 4, "waiting": 0, "leased": 0, "built": 1, "failed": 2, "cancelled": 1}
        )
        self.assertFalse(report.is_all_built)

    def test_what_is_needed_no_longer_is_built(self) -> None:
        lost = entries(b"head\nchosen 0 0 0\nstarted 0\nfailed 0 lost\n")
        report = self.report(
            RoundText([("a", []), ("b", ["a"])], lost, []), RoundText([("b", [])], entries(b"head\nbuilt 0 o\n"), [])
        )
        self.assertTrue(report.is_all_built)
        self.assertIn("rounds 2\n", report.text(2, ""))

    def test_leases_that_are_open(self) -> None:
        text = self.report(RoundText([("a", [])], entries(b"head\nchosen 0 0 0\n"), [])).text(1, "INT")
        self.assertIn("leased 1\n", text)
        self.assertIn("cancelled 0\ninterrupted INT\nmachine 0 up 1/1 local\n", text)


class Journals(unittest.TestCase):
    def test_what_a_slot_was_chosen_for(self) -> None:
        """By the whole lines of a journal that grows."""
        with tempfile.TemporaryDirectory() as folder:
            file = os.path.join(folder, "journal")
            chosen = Chosen(file, ["/a.drv", "/b.drv"])
            self.assertEqual(chosen.of(Place(1, 0)), "-")
            for text, wanted in (
                ("nix-dispatch-history 2\nchosen 1 1 0\ncho", "/b.drv"), ("sen 0 1 0", "/b.drv"),
                ("\nchosen 1 1 1\nchosen 9 1 0\n", "/a.drv"),
            ):
                with open(file, "a", encoding="ascii") as journal:
                    journal.write(text)
                self.assertEqual(chosen.of(Place(1, 0)), wanted)
            self.assertEqual(chosen.of(Place(1, 1)), "/b.drv")


class Timelines(unittest.TestCase):
    def test_copies_and_builds(self) -> None:
        path = drv_path("a")
        told = notes(
            "100 1 0 copy 3", "150 1 0 copied 0", f"160 1 0 begin {path}", f"200 1 0 end {path} 0", "300 1 0 copy 2",
            "310 1 0 copied 1",
        )
        machines = {1: Machine(1, 'odd "uri"\\', "", "", [0])}
        lasted = [
            (
                one["name"], one["ts"], one["dur"], one["args"]["status"]
            ) for one in json.loads(trace([machines], told)) if one["ph"] == "X"
        ]
        wanted = [
            ("copy for a", 100000, 50000, "0"), ("a", 160000, 40000, "0"), ("copy of 2 paths", 300000, 10000, "1")
        ]
        self.assertEqual(lasted, wanted)


class Displays(unittest.TestCase):
    def heard(
        self, terminal: bool, *lines: str, out: str = "/none", uris: Dict[str, str] = {"1": "ssh://one", "0": "local"},
        size: Tuple[int, int] = (80, 24),
    ) -> str:
        said: List[str] = []
        display = Display(out, lambda: uris, said.append, terminal, lambda: size)
        for note in notes(*lines):
            display.hear(note)
        if terminal:
            display.end()
        return "".join(said)

    def test_a_further_round_begins_without_the_last_one(self) -> None:
        path = drv_path("a")
        said = self.heard(
            True, "1 - - round 1 2", f"1 1 0 begin {path}", f"2 1 0 end {path} 1", f"2 1 0 lost {path} machine gone",
            "3 1 0 no machine off", "4 - - round 2 1", f"4 1 0 begin {path}",
        )
        last = said.split("\n")[-3:]
        self.assertEqual(last[0], "built 0, leased 1, failed 0, waiting 0 of 1")
        self.assertRegex(last[1], r"^ *[0-9:]+  builds a on ssh://one \(slot 1\.0\)$")

    def test_a_terminal_has_room_for_so_many_lines(self) -> None:
        """The longest first, and none is wider than the terminal."""
        begun = [f"{9000 - number} 1 {number} begin {drv_path(f'part{number}')}" for number in range(9)]
        said = self.heard(True, "1 - - round 1 20", *begun, "9999 1 9 copy 12", size=(50, 6))
        last = said.split("\x1b[J")[-1].split("\n")
        self.assertEqual(len(last), 6, said)
        self.assertEqual(last[0], "built 0, leased 10, failed 0, waiting 10 of 20")
        self.assertEqual([line.split()[2] for line in last[1:4]], ["part8", "part7", "part6"])
        self.assertRegex(last[4], "and 7 more")
        self.assertLess(max(len(line) for line in last), 50)

    def test_it_is_drawn_ten_times_a_second_at_most(self) -> None:
        begun = [f"1 1 {number} begin {drv_path('a')}" for number in range(200)]
        said = self.heard(True, "1 - - round 1 300", *begun)
        self.assertLess(said.count("built 0"), 20)

    def test_what_is_said_stands_before_the_block(self) -> None:
        said = self.heard(True, "1 - - round 1 3", f"1 1 0 begin {drv_path('a')}", "1 2 0 no machine off")
        self.assertIn("\x1b[Jdown: : off\n", said)

    def test_a_copy_says_what_it_is_for(self) -> None:
        said = self.heard(True, "1 - - round 1 3", f"1 1 0 copy 12 {drv_path('a')}")
        self.assertRegex(said, r"copies for a \(12 paths\) on ssh://one \(slot 1\.0\)")

    def test_times(self) -> None:
        wanted = {0: "0:00", 61000: "1:01", 3600000: "1:00:00", 7384000: "2:03:04", -5: "0:00"}
        self.assertEqual({time: lasted(time) for time in wanted}, wanted)

    def test_a_round_that_is_gone_on_with(self) -> None:
        said = self.heard(False, "1 - - again 1 5 2 1", f"2 0 0 valid {drv_path('a')}")
        self.assertEqual(said, "3 of 5: valid a on 0.0\n")

    def test_a_machine_s_end_is_told_once(self) -> None:
        said = self.heard(False, "1 - - round 1 2", "1 1 0 no machine off", "1 1 1 no machine off")
        self.assertEqual(said, "down: ssh://one: off\n")

    def test_the_last_lines_of_a_log(self) -> None:
        with tempfile.TemporaryDirectory() as folder:
            log = os.path.join(folder, "log")
            with open(log, "wb") as file:
                file.write(b"".join(b"line %d\n" % number for number in range(100)) + b"gru\xdf")
            self.assertEqual(last_lines(log)[-2:], ["line 99", "gru\\xdf"])
            self.assertEqual(len(last_lines(log)), 25)
        self.assertEqual(last_lines(log), [])


if __name__ == "__main__":
    unittest.main()
