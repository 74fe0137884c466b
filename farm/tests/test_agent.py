"""farm/agent, the example of an agent of one's own: what it answers its calls."""

import os
import unittest
from typing import List

from tests.world import FARM, FarmCase


class Agent(FarmCase):
    def answers(self, entry: str, *calls: str) -> List[str]:
        """What the agent answers these calls."""
        world = self.world
        with open(world.at("calls"), "w", encoding="ascii") as file:
            file.write("".join(call + "\n" for call in calls))
        script = f'exec "{os.path.join(FARM, "agent")}" "$1" < "{world.at("calls")}"'
        ran = world.call(["sh", "-c", script, "sh", entry])
        self.ended(ran, 0)
        return ran.out.splitlines()

    def test_a_build_on_a_machine(self) -> None:
        world = self.world
        source = world.source("source")
        drv = world.drv("root", sources=[source], outputs=["dev", "out"], refs={"out": [source]})
        uri = world.machine("one", ssh=True)
        answers = self.answers(
            world.builders[0], "connect", f"copy {source}",
            f"build {drv} {world.output(drv, 'dev')} {world.output(drv)}",
        )
        self.assertEqual(answers, ["yes", "yes", f"built o o {source}"])
        self.assertEqual(
            (world.pings(), world.copied(), world.builds()), (["one"], [("one", source)], [("root", "one")])
        )
        self.assertEqual(world.settings_of("root")["builders"], f"{uri} x86_64-linux - 1 1 - - -")

    def test_a_build_here(self) -> None:
        world = self.world
        drv = world.drv("root")
        self.assertEqual(
            self.answers("local", "connect", "copy", f"build {drv} {world.output(drv)}"), ["yes", "yes", "built o"]
        )
        self.assertEqual(world.builds(), [("root", "local")])

    def test_keys(self) -> None:
        world = self.world
        self.assertEqual(self.answers("ssh://one?remote-store=/x x86_64-linux /key 1 1 - - HOST", "connect"), ["yes"])
        told = world.calls("nix", "ping")[0][-1]
        self.assertEqual(told, "ssh://one?remote-store=/x&ssh-key=/key&base64-ssh-public-host-key=HOST")

    def test_what_fails(self) -> None:
        world = self.world
        here, there, lost = world.drv("here"), world.drv("there"), world.drv("lost")
        uri = world.machine("one", ssh=True)
        world.happens("pings", uri, {"status": 1})
        world.happens("copies", uri, {"status": 1})
        words = f"builder for '{here}' failed with exit code 3\n"
        world.happens("builds", "here", {"says": "error: " + words, "status": 100})
        words = f"error: build of '{there}' on '{uri}' failed: builder for '{there}' failed with exit code 4;\n"
        world.happens(
            "builds", "there", {"says": words + f"error: builder for '{there}' failed with exit code 1\n", "status": 1}
        )
        world.happens(
            "builds", "lost",
            {
                "says": f"error: unexpected end-of-file\nerror: builder for '{lost}' failed with exit code 1\n",
                "status": 1,
            },
        )
        source = world.source("source")
        answers = self.answers(
            world.builders[0], "connect", f"copy {source}", f"build {there} {world.output(there)}",
            f"build {lost} {world.output(lost)}",
        )
        self.assertEqual(answers, ["no", "no", "failed 4", "lost"])
        self.assertEqual(self.answers("local", f"build {here} {world.output(here)}"), ["failed 3"])

    def test_it_is_short(self) -> None:
        with open(os.path.join(FARM, "agent"), encoding="utf-8") as text:
            self.assertLessEqual(len(text.readlines()), 80)


if __name__ == "__main__":
    unittest.main()
