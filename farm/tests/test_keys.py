"""Keys that this user can't read, and users that Nix doesn't trust."""

import asyncio
import tempfile
import unittest
from unittest import mock

from nix_farm import blame, keys
from nix_farm.daemon import Failed
from nix_farm.errors import GivenUp
from nix_farm.park import Machine
from tests.world import FarmCase


def machine(key: str, name: str = "one") -> Machine:
    return Machine(1, f"ssh://{name}", key, "", [0])


class Keys(unittest.TestCase):
    """What is said of keys, and what is left to Nix's daemon."""

    def look(self, machines, by_daemon, unread=("/keys/one",)):
        """What is said, where these keys can't be read."""
        said = []
        with mock.patch.object(keys, "say", said.append), \
                mock.patch.object(keys.os, "access", lambda path, mode: path not in unread), \
                mock.patch.object(keys.os.path, "lexists", lambda path: path in unread):
            keys.look_at_keys(machines, by_daemon)
        return said

    def test_a_key_of_the_daemon_s_is_said_once(self) -> None:
        those = [machine("/keys/one"), machine("/keys/one", "two"), machine("", "three")]
        said = self.look(those, True)
        self.assertEqual(len(said), 1)
        self.assertRegex(said[0], "the key /keys/one can't be read by this user, so copies to ssh://one ssh://two are left to")
        self.assertEqual([one.is_left_to_daemon for one in those], [True, True, False])
        self.assertEqual(those[0].keyed, "ssh://one")
        self.assertIn("/keys/one", those[0].builders("x86_64-linux", ""))

    def test_without_a_daemon_it_says_what_to_do(self) -> None:
        one = machine("/keys/one")
        said = self.look([one], False)
        self.assertRegex(said[0], "so ssh://one can't be logged in to: give this user a key that it may read")
        self.assertFalse(one.is_left_to_daemon)

    def test_a_key_that_is_not_there(self) -> None:
        one = machine("/keys/none")
        said = self.look([one], True, unread=("/keys/none",))
        self.assertIn("can't be read", said[0])
        with tempfile.TemporaryDirectory() as folder:
            said = []
            with mock.patch.object(keys, "say", said.append):
                keys.look_at_keys([machine(f"{folder}/none")], True)
        self.assertRegex(said[0], "there is no key .*/none, so ssh://one can't be logged in to")

    def test_whose_store_it_is(self) -> None:
        for remote in ("daemon", "unix:///socket"):
            self.assertTrue(keys.is_by_daemon(remote))
        for remote in ("/folder", "local", "ssh://one"):
            self.assertFalse(keys.is_by_daemon(remote))
        with mock.patch.object(keys.os, "access", lambda path, mode: False):
            self.assertTrue(keys.is_by_daemon(""))
        with mock.patch.object(keys.os, "access", lambda path, mode: True):
            self.assertFalse(keys.is_by_daemon(""))

    def test_a_user_that_the_daemon_does_not_trust(self) -> None:
        class Daemon:
            """One that says this of the user."""

            def __init__(self, trusts: bool, fails: bool = False) -> None:
                self.trusts, self.fails = trusts, fails

            async def is_trusted(self) -> bool:
                if self.fails:
                    raise Failed(1, b"error: cannot open connection\n")
                return self.trusts

            async def close(self) -> None:
                pass

        with self.assertRaises(GivenUp) as caught:
            asyncio.run(keys.look_for_trust(Daemon(False)))
        self.assertEqual(caught.exception.status, 3)
        self.assertIn("`trusted-users`", str(caught.exception))
        asyncio.run(keys.look_for_trust(Daemon(True)))
        asyncio.run(keys.look_for_trust(Daemon(False, fails=True)))


class Trust(FarmCase):
    """A machine that doesn't trust the user of its URI."""

    def test_the_cause_says_what_to_do(self) -> None:
        world = self.world
        root = world.drv("root", sources=[world.source("source")])
        bad = world.machine("bad", ssh=True, speed=9)
        world.machine("good", ssh=True)
        words = f"error: cannot add path '{world.source('source')}' because it lacks a signature by a trusted key\n"
        world.happens("copies", bad, {"says": words, "status": 1})
        ran = world.build(root, jobs=0)
        self.ended(ran, 0)
        self.says(ran, "down: ssh://bad.*name it in `trusted-users` of /etc/nix/nix.conf there: cannot add path")

    def test_of_a_build_too(self) -> None:
        said = b"error: you are not privileged to build input-addressed derivations\n"
        fault = blame.fault_of(said, "build", 1, "there", "/nix/store/x.drv")
        self.assertEqual((fault.answer, fault.who), ("lost", "machine"))
        self.assertIn("`trusted-users`", fault.cause)


if __name__ == "__main__":
    unittest.main()
