"""Waits that have a bound."""

import asyncio
import subprocess
import unittest

from nix_farm import bounds
from nix_farm.copies import Copies
from nix_farm.options import parse
from nix_farm.settings import bounds_of_builds
from tests.world import FARM, FarmCase


class Quiet:
    """A progress that has been quiet for so many seconds."""

    def __init__(self, seconds: float) -> None:
        self.seconds = seconds

    def quiet(self) -> float:
        return self.seconds


class Damaged:
    """What is known to be damaged: each path."""

    def known(self, paths: "list[str]") -> str:
        return f"path '{paths[0]}' is damaged in this store"


class Bounds(unittest.TestCase):
    """Each bound by itself."""

    def setUp(self) -> None:
        self.beat, bounds.BEAT = bounds.BEAT, 0.02

    def tearDown(self) -> None:
        bounds.BEAT = self.beat

    def test_what_comes_is_handed_on(self) -> None:
        async def look() -> str:
            return ""

        async def works() -> int:
            await asyncio.sleep(0.1)
            return 3

        self.assertEqual(asyncio.run(bounds.watched(works(), look)), 3)

    def test_what_stalls_is_called_off(self) -> None:
        ended = []

        async def look() -> str:
            return "it stands still"

        async def hangs() -> None:
            try:
                await asyncio.sleep(100)
            finally:
                ended.append(True)

        with self.assertRaisesRegex(bounds.Stalled, "it stands still"):
            asyncio.run(bounds.watched(hangs(), look))
        self.assertEqual(ended, [True])

    def test_what_moves_is_not_quiet(self) -> None:
        child = subprocess.Popen(["cat"], stdin=subprocess.PIPE, stdout=subprocess.DEVNULL)
        self.addCleanup(child.wait)
        self.addCleanup(child.kill)
        self.addCleanup(child.stdin.close)
        progress = bounds.Progress(lambda: child.pid)
        for _ in range(100):
            # What the child reads as it starts moves too.
            progress.quiet()
            progress._moved_at -= 100
            if progress.quiet() > 99:
                break
            subprocess.run(["sleep", "0.1"], check=True)
        self.assertGreater(progress.quiet(), 99)
        child.stdin.write(b"something")
        child.stdin.flush()
        for _ in range(100):
            if progress.quiet() < 50:
                break
            subprocess.run(["sleep", "0.1"], check=True)
        self.assertLess(progress.quiet(), 50)

    def test_a_task_that_forgets_that_it_is_called_off(self) -> None:
        """It is called off once more: wait_for forgets it before Python 3.12, where what it waits for is done by then."""
        async def forgets() -> None:
            try:
                await asyncio.sleep(100)
            except asyncio.CancelledError:
                pass
            await asyncio.sleep(100)

        async def call_off() -> bool:
            task = asyncio.ensure_future(forgets())
            await asyncio.sleep(0.05)
            await bounds.call_off([task])
            return task.cancelled()

        self.assertTrue(asyncio.run(asyncio.wait_for(call_off(), 20)))

    def test_a_process_that_is_not_there(self) -> None:
        self.assertLess(bounds.Progress(lambda: None).quiet(), 5)

    def look(self, quiet: float, lasted: float = 0, timeout: int = 0, silent: int = 0, is_there: bool = True) -> str:
        async def asks() -> bool:
            return is_there

        one = bounds.OfBuild(Quiet(quiet), timeout, silent, 60, asks)
        one._begun -= lasted
        return asyncio.run(one.look())

    def test_bounds_of_a_build(self) -> None:
        self.assertEqual(self.look(50, is_there=False), "")
        self.assertRegex(self.look(61, is_there=False), "the machine doesn't answer any more")
        self.assertEqual(self.look(1000, lasted=100000), "")
        self.assertRegex(self.look(61, lasted=81, timeout=20), "60 seconds behind the timeout of 20 Nix has not ended")
        self.assertEqual(self.look(61, lasted=79, timeout=20), "")
        self.assertEqual(self.look(59, lasted=1000, timeout=20), "")
        self.assertRegex(self.look(76, lasted=80, silent=15), "60 seconds behind the 15 that it may be silent")
        self.assertEqual(self.look(74, lasted=80, silent=15), "")

    def test_a_path_that_is_known_to_be_damaged(self) -> None:
        """No copy of it is tried again."""
        ended = []
        copies = Copies(None, None, Damaged(), None, None, 1)
        fault = asyncio.run(copies.copy(["/nix/store/x"], lambda said: None, ended.append))
        self.assertEqual((fault.who, fault.cause, ended), ("here", "path '/nix/store/x' is damaged in this store", [1]))

    def test_what_nix_gives_a_build(self) -> None:
        root = "/nix/store/x.drv"
        self.assertEqual(bounds_of_builds(parse([root]), {}), (0, 0))
        self.assertEqual(bounds_of_builds(parse([root]), {"timeout": "7", "max-silent-time": "8"}), (7, 8))
        words = ["--timeout", "3", "--option", "max-silent-time", "4", root]
        self.assertEqual(bounds_of_builds(parse(words), {"timeout": "7", "max-silent-time": "8"}), (3, 4))


class Hangs(FarmCase):
    """Machines that hang."""

    def build_with(self, given, *words):
        """farm/build with constants of its modules that are others: their names, and what they are."""
        lines = ["import sys", f"sys.path.insert(0, {FARM!r})", "from nix_farm.build import main"]
        lines += [f"import nix_farm.{name.split('.')[0]}\nnix_farm.{name} = {value!r}" for name, value in given.items()]
        lines += ["sys.exit(main(sys.argv[1:], ''))"]
        world = self.world
        return world.call([world.at("bin/python3"), "-c", "\n".join(lines), *world.command(words, jobs=0)[1:]])

    def test_a_copy_that_stands_still(self) -> None:
        for size in (120, 5 << 20):
            with self.subTest(size=size):
                world = self.world
                source = world.source(f"source{size}", size=size)
                root = world.drv(f"root{size}", sources=[source])
                bad = world.machine(f"bad{size}", ssh=True, speed=9)
                if size == 120:
                    world.machine("good", ssh=True)
                world.happens("copies", bad, {"seconds": 200})
                ran = world.build("--copy-timeout", "2", root, jobs=0, out=f"out{size}")
                self.ended(ran, 0)
                self.says(ran, f"down: ssh://bad{size}.*: no byte of a copy has moved for 2 seconds")
                self.assertIn((f"root{size}", "good"), world.builds())
        self.is_over("out120")

    def test_a_machine_whose_nix_hangs(self) -> None:
        """It is asked by Nix once nothing was heard of the build, and another one builds."""
        world = self.world
        root = world.drv("root")
        bad = world.machine("bad", ssh=True, speed=9)
        world.machine("good", ssh=True)
        world.happens("builds", f"root on {bad}", {"seconds": 200})
        # its sshd answers, then its Nix doesn't when it is asked twice; and the same in the next round
        world.happens("pings", bad, {}, {"seconds": 200}, {"seconds": 200}, {}, {"seconds": 200})
        ran = self.build_with({"bounds.ASKED_BEHIND": 1.0}, "--connect-timeout", "1", root)
        self.ended(ran, 0)
        self.says(ran, "lost: root on ssh://bad.*: the machine doesn't answer any more: nothing was heard of the build")
        self.says(ran, "down: ssh://bad.*: its sshd answers, and its Nix doesn't")
        self.assertEqual(world.report()["by_name"]["root"]["machine"], "ssh://good.example.org")
        self.assertEqual(world.report()["rounds"], 2)
        self.is_over()

    def test_a_long_silent_build_goes_on_where_the_machine_answers(self) -> None:
        world = self.world
        root = world.drv("root")
        one = world.machine("one", ssh=True)
        world.happens("builds", "root", {"seconds": 6})
        ran = self.build_with({"bounds.ASKED_BEHIND": 1.0, "machine.HOLDS": 1.0}, root)
        self.ended(ran, 0)
        self.assertEqual(world.report()["rounds"], 1)
        self.assertGreater(len(world.pings()), 1, one)

    def test_a_build_behind_its_timeout(self) -> None:
        world = self.world
        root = world.drv("root")
        bad = world.machine("bad", ssh=True, speed=9)
        world.machine("good", ssh=True)
        world.happens("builds", f"root on {bad}", {"seconds": 200})
        ran = self.build_with({"builds.SOME": 1.0}, "--timeout", "2", root)
        self.ended(ran, 0)
        self.says(ran, "lost: root on ssh://bad.*: 1 seconds behind the timeout of 2 Nix has not ended the build")
        self.assertEqual(world.report()["by_name"]["root"]["machine"], "ssh://good.example.org")


if __name__ == "__main__":
    unittest.main()
