"""What the command line of farm/build says: to Nix, to the program, and to substituters."""

import os
import re
import shlex
import unittest

from nix_farm.errors import GivenUp, Usage
from nix_farm.options import parse
from tests.world import FARM, HERE, FarmCase


class Words(FarmCase):
    """What of the command line reaches Nix and the program."""

    def test_nix_s_words_reach_each_build(self) -> None:
        world = self.world
        words = ["--timeout", "60", "--max-silent-time", "50", "--cores", "2", "-K", "--option", "log-lines", "30"]
        self.ended(world.build(*words, world.drv("root")), 0)
        wanted = {
            "timeout": "60", "max-silent-time": "50", "cores": "2", "keep-failed": "true", "log-lines": "30",
            "substitute": "false",
        }
        found = world.settings_of("root")
        self.assertEqual({name: found.get(name) for name in wanted}, wanted)

    def test_the_bound_on_connecting(self) -> None:
        world = self.world
        world.machine("one", ssh=True)
        world.environment["NIX_SSHOPTS"] = "-p 2222"
        self.ended(world.build("--connect-timeout", "3", world.drv("root"), jobs=0), 0)
        options = [one["ssh"] for one in world.noted("calls") if "ConnectTimeout" in (one.get("ssh") or "")][0]
        for words in ("-p 2222 ", "ConnectTimeout=3", "ServerAliveInterval=3", "ServerAliveCountMax=3"):
            self.assertIn(words, options)

    def test_help(self) -> None:
        ran = self.world.call([os.path.join(FARM, "build"), "--help"])
        self.ended(ran, 0)
        self.assertIn("nix-dispatch build [-o FOLDER] [OPTION ..] ROOT.drv ..", ran.out)

    def test_what_is_not_understood(self) -> None:
        for words in (["--none", self.world.drv("root")], ["not-a-derivation"]):
            ran = self.world.call([os.path.join(FARM, "build"), *words])
            self.ended(ran, 2)
            self.assertTrue(ran.err)

    def test_a_root_that_is_a_link(self) -> None:
        world = self.world
        root = world.drv("root")
        os.symlink(root, world.at("inner.drv"))
        os.symlink("inner.drv", world.at("outer.drv"))
        self.ended(world.build(world.at("outer.drv")), 0)
        self.assertEqual(world.built(), ["root"])

    def test_a_builders_list_that_is_not_there(self) -> None:
        world = self.world
        ran = world.call(
            [
                os.path.join(FARM, "build"), "-o", world.at("out"), "--builders", "@" + world.at("none"),
                world.drv("root"),
            ]
        )
        self.ended(ran, 3)
        self.says(ran, f"the builders list {re.escape(world.at('none'))} can't be read")

    def settings_fail(self, words: str) -> None:
        """Has `nix show-config` do this, and `nix` else what it does."""
        other = os.path.join(HERE, "stand_ins", "nix")
        self.world.script("bin/nix", f'case " $* " in *" show-config "*) {words} ;; esac\nexec {shlex.quote(other)} "$@"')

    def test_settings_that_cannot_be_read(self) -> None:
        world = self.world
        self.settings_fail("echo 'warning: some' >&2; echo \"error: syntax error in 'nix.conf'\" >&2; exit 1")
        ran = world.build(world.drv("root"))
        self.ended(ran, 3)
        self.says(ran, "says no settings, so give --system, --extra, --features: error: syntax error in 'nix.conf'")
        self.assertEqual(len(ran.err.splitlines()), 1)
        self.assertEqual(world.built(), [])
        self.assertFalse(os.path.lexists(world.at("out")))

    def test_settings_that_cannot_be_read_without_a_word(self) -> None:
        world = self.world
        self.settings_fail("exit 7")
        ran = world.build(world.drv("root"), jobs=None)
        self.ended(ran, 3)
        self.says(ran, "so give --system, --extra, --features, --jobs: its status is 7")

    def test_settings_that_are_all_given(self) -> None:
        world = self.world
        self.settings_fail("exit 1")
        given = ["--system", "i686-linux", "--extra", "", "--features", ""]
        self.ended(world.build(*given, world.drv("root", system="i686-linux")), 0)
        self.assertEqual(world.built(), ["root"])

    def test_what_cannot_be_gathered(self) -> None:
        world = self.world
        root = world.drv("root")
        world.lose(root)
        ran = world.build(root)
        self.ended(ran, 3)
        self.says(ran, "can't be gathered", "is not valid")
        self.assertFalse(os.path.lexists(world.at("out/gcroots")))

    def test_a_park_that_is_refused(self) -> None:
        world = self.world
        world.dispatch["park"] = [3, "nix-dispatch: builders: BadJobs 1\n"]
        ran = world.build(world.drv("root"))
        self.ended(ran, 3)
        self.says(ran, "builders: BadJobs 1", "the park is refused")

    def test_paths_that_are_refused(self) -> None:
        world = self.world
        world.dispatch["ask"] = [3, "nix-dispatch: drvs: WrongPath 1\n"]
        root = world.drv("root")
        ran = world.build("--check-paths", root)
        self.ended(ran, 3)
        self.says(ran, "drvs: WrongPath 1", "the paths are refused")
        self.assertEqual(world.built(), [])
        self.ended(world.build(root, out="other"), 0)

    def test_a_program_that_is_not_there(self) -> None:
        world = self.world
        world.environment["NIX_DISPATCH"] = world.at("none")
        ran = world.build(world.drv("root"))
        self.ended(ran, 5)
        self.says(ran, "there is no .*none: ./build makes it")

    def test_a_program_that_does_not_run(self) -> None:
        world = self.world
        world.environment["NIX_DISPATCH"] = "/bin/false"
        ran = world.build(world.drv("root"))
        self.ended(ran, 5)
        self.says(ran, "doesn't run: ./build makes it")

    def test_a_history_that_is_not_legal(self) -> None:
        world = self.world
        world.dispatch["audit"] = [4, "illegal 1 another machine\n"]
        ran = world.build(world.drv("root"))
        self.ended(ran, 4)
        self.says(ran, "illegal 1 another machine")
        self.assertEqual(world.report()["status"], 4)


class Parsed(unittest.TestCase):
    """The words by themselves."""

    def test_what_is_not_understood(self) -> None:
        for words in (
            [], ["--jobs", "08"], ["--jobs", ""], ["--retries", "-1"], ["--retries", "x"], ["--timeout", ""],
            ["--none"], ["-o"], ["--option", "name"],
        ):
            with self.assertRaises(Usage, msg=str(words)):
                parse(["/nix/store/x.drv", *words] if words else [])

    def test_what_is_refused_in_words(self) -> None:
        for words in (
            ["--option", "", "x"], ["--option", "name", "two words"], ["--option", "Name", "x"], ["not-a-derivation"]
        ):
            with self.assertRaises(GivenUp, msg=str(words)) as caught:
                parse(["/nix/store/x.drv", *words])
            self.assertEqual(caught.exception.status, 2)

    def test_names_of_one_thing(self) -> None:
        for words in (["--jobs", "3"], ["-j", "3"], ["--max-jobs", "3"]):
            self.assertEqual(parse([*words, "x.drv"]).jobs, "3")
        for word in ("--no-link", "--no-out-link"):
            self.assertFalse(parse([word, "x.drv"]).link)
        self.assertEqual(parse(["-k", "-K", "x.drv"]), parse(["--keep-going", "--keep-failed", "x.drv"]))


class Substitutes(FarmCase):
    def test_what_a_substituter_has_is_fetched(self) -> None:
        world = self.world
        tool = world.drv("tool")
        root = world.drv("root", [tool])
        world.substitutes = {world.output(tool): "ok"}
        ran = world.build("--substitute", "--option", "require-sigs", "false", root)
        self.ended(ran, 0)
        self.says(ran, "1 paths are fetched from the substituters")
        for call in world.calls("nix-store", "--realise"):
            self.assertIn("--option require-sigs false", " ".join(call))
        self.assertEqual(world.built(), ["root"])

    def test_what_cannot_be_fetched_is_built(self) -> None:
        world = self.world
        root = world.drv("root")
        world.substitutes = {world.output(root): "fails"}
        ran = world.build("--option", "substitute", "true", root)
        self.ended(ran, 0)
        self.says(ran, "some of them were not:", "no substituter that can build it")
        self.assertEqual(world.built(), ["root"])

    def test_that_they_are_not_asked_is_said(self) -> None:
        world = self.world
        world.settings["substitute"] = "true"
        root = world.drv("root")
        self.says(world.build(root), "substituters aren't asked: --substitute takes from them what they have")
        ran = world.build("--option", "substitute", "false", root, out="other")
        self.assertNotIn("substituters", ran.err)
        self.assertFalse(world.calls("nix-store", "--dry-run"))


if __name__ == "__main__":
    unittest.main()
