"""What blame.py says of each message that Nix 2.8 gave, and of messages that were made up.

Where `BLAME_MESSAGES` names a folder that checks/blame/capture.sh has filled, those messages are looked at in place of
the kept ones, with the statuses that Nix ended with.
"""

import os
import re
import unittest
from typing import List, Tuple

from nix_farm.blame import Fault, fault_of

KEPT = os.path.join(os.path.dirname(__file__), "..", "..", "checks", "blame")
CAPTURED = os.environ.get("BLAME_MESSAGES")
MESSAGES = CAPTURED or os.path.join(KEPT, "messages")
DRV = "/nix/store/0c9kxh7bfgvj3z6gslmk4b0a1ynw2ppd-thing.drv"


def table() -> List[Tuple[str, int, str, str]]:
    """The rows of checks/blame/table: a message, Nix's status, the answer, and who is to blame."""
    with open(os.path.join(KEPT, "table"), encoding="ascii") as text:
        rows = [line.split() for line in text]
    statuses = {row[0]: row[1] for row in rows}
    if CAPTURED:
        with open(os.path.join(CAPTURED, "statuses"), encoding="ascii") as text:
            statuses.update(line.split() for line in text)
    return [(row[0], int(statuses[row[0]]), " ".join(row[2:-1]), row[-1]) for row in rows]


def read(name: str) -> bytes:
    with open(os.path.join(MESSAGES, name), "rb") as text:
        return text.read()


def judged(name: str, status: int) -> Fault:
    """What is said of one of the kept messages, which name the derivation that they are about."""
    kind = name.split("-")[0]
    call = {"here": "build", "there": "build", "ping": "connect"}.get(kind, kind)
    message = read(name)
    drv = re.search(rb"^  (/nix/store/.*\.drv)$", message, re.MULTILINE)
    return fault_of(message, call, status, "here" if kind == "here" else "there", drv.group(1).decode() if drv else "")


class Kept(unittest.TestCase):
    """A test for each of the messages in checks/blame/messages."""

    def test_there_are_rows_for_all(self) -> None:
        self.assertEqual(sorted(row[0] for row in table()), sorted(set(os.listdir(MESSAGES)) - {"statuses"}))


def _test_of(name: str, status: int, answer: str, who: str):
    def test(self: unittest.TestCase) -> None:
        fault = judged(name, status)
        self.assertEqual((fault.answer, fault.who), (answer, who), fault.cause)
        self.assertRegex(fault.cause, r"\A[!-~][ -~]*\Z")

    return test


for _row in table():
    setattr(Kept, "test_" + _row[0].replace("-", "_"), _test_of(*_row))


def there(*lines: bytes, status: int = 1, drv: str = DRV) -> Fault:
    return fault_of(b"\n".join(lines) + b"\n", "build", status, "there", drv)


def here(*lines: bytes, status: int = 1) -> Fault:
    return fault_of(b"\n".join(lines) + b"\n", "build", status, "here", DRV)


def hook(words: bytes) -> bytes:
    """The line by which Nix's hook ends a build on a machine."""
    return b"error: build of '" + DRV.encode() + b"' on 'ssh://one' failed: " + words


def builder(words: bytes) -> bytes:
    return b"builder for '" + DRV.encode() + b"' " + words


# The line by which Nix here ends each build on a machine that didn't go well.
END = b"error: " + builder(b"failed with exit code 1")


class MadeUp(unittest.TestCase):
    """Messages with what has gone wrong once, or might."""

    def test_a_builder_that_plays_the_hook_is_not_believed(self) -> None:
        fault = there(
            hook(builder(b"failed with exit code 9")), b"more of the log", hook(builder(b"failed with exit code 3")),
            END,
        )
        self.assertEqual(fault[:2], ("failed 3", "builder"))

    def test_a_builder_that_plays_this_nix_is_not_believed(self) -> None:
        self.assertEqual(there(END, b"error: unexpected end-of-file", END)[:2], ("lost", "machine"))

    def test_another_derivation_s_line_says_nothing(self) -> None:
        other = hook(builder(b"failed with exit code 3")).replace(b"-thing.drv", b"-other.drv")
        self.assertEqual(there(other, END)[:2], ("lost", "machine"))

    def test_the_last_line_of_nix_counts_here(self) -> None:
        fault = here(b"error: " + builder(b"failed with exit code 9"), b"error: " + builder(b"failed with exit code 4"))
        self.assertEqual(fault[:2], ("failed 4", "builder"))

    def test_codes_are_at_most_255(self) -> None:
        self.assertEqual(here(b"error: " + builder(b"failed with exit code 300")).answer, "failed 255")

    def test_a_signal_of_its_own_is_128_and_its_number(self) -> None:
        words = b"error: " + builder(b"failed due to signal 11 (Segmentation fault)")
        self.assertEqual(here(words)[:2], ("failed 139", "builder"))
        self.assertEqual(there(hook(words[7:]), END)[:2], ("failed 139", "builder"))

    def test_a_signal_that_ends_machines_is_lost(self) -> None:
        for number in (b"1 (Hangup)", b"2 (Interrupt)", b"9 (Killed)", b"15 (Terminated)"):
            words = builder(b"failed due to signal " + number)
            self.assertEqual(here(b"error: " + words)[:2], ("lost", "here"))
            self.assertEqual(there(hook(words), END)[:2], ("lost", "machine"))

    def test_two_builds_that_differ(self) -> None:
        fault = here(b"error: derivation '" + DRV.encode() + b"' may not be deterministic: output differs")
        self.assertEqual(fault[:2], ("failed 104", "builder"))

    def test_a_repeated_build_that_differs(self) -> None:
        """As Nix 2.8 says it with `repeat`, here and on a machine; capture.sh can't have it: in a store that is a folder such
        a build ends otherwise."""
        words = b"output '/nix/store/x' of '" + DRV.encode() + b"' differs from "
        self.assertEqual(here(b"error: " + words + b"previous round")[:2], ("failed 104", "builder"))
        fault = there(hook(words + b"'/nix/store/x.check' from previous round"), END)
        self.assertEqual(fault[:2], ("failed 104", "builder"))

    def test_what_nix_refuses(self) -> None:
        for words in (
            b"output '/nix/store/x' is not allowed to have direct references",
            b"output size check for 'out' contains too much", b"derivation contains an illegal reference specifier 'x'",
            b"suspicious ownership or permission on '/nix/store/x'",
        ):
            self.assertEqual(here(b"error: " + words)[:2], ("failed 100", "builder"), words)

    def test_a_full_disk_there_is_the_machine_s(self) -> None:
        note = b"       note: build failure may have been caused by lack of free disk space"
        fault = there(hook(builder(b"failed with exit code 1")), note, END)
        self.assertEqual(fault[:2], ("lost", "machine"))
        self.assertIn("no space left", fault.cause)

    def test_a_full_disk_here_is_not_the_machine_s(self) -> None:
        note = b"       note: build failure may have been caused by lack of free disk space"
        self.assertEqual(there(hook(builder(b"failed with exit code 1")), END, note).answer, "failed 1")
        self.assertEqual(here(END, note)[:2], ("lost", "here"))

    def test_a_builder_that_tells_of_a_full_disk_has_failed(self) -> None:
        self.assertEqual(
            here(b"sh: write error: No space left on device", b"error: " + builder(b"failed with exit code 2")).answer,
            "failed 2",
        )

    def test_no_space_in_a_copy(self) -> None:
        lines = b"copying path '/nix/store/x' to 'ssh://one'...\nerror: writing to file: No space left on device\n"
        self.assertEqual(fault_of(lines, "copy", 1, "there")[:2], ("no", "machine"))
        back = lines.replace(b"' to '", b"' from '")
        fault = fault_of(back, "copy", 1, "there")
        self.assertEqual(fault[:2], ("no", "here"))
        self.assertTrue(fault.cause.startswith("no space left here: "), fault.cause)

    def test_what_took_too_long(self) -> None:
        for status in (124,):
            self.assertEqual(fault_of(b"", "connect", status, "there"), ("no", "machine", "no answer in time"))

    def test_nothing_said(self) -> None:
        self.assertEqual(there(status=7), ("lost", "machine", "Nix ended with status 7"))
        self.assertEqual(fault_of(b"", "build", 100, "here"), ("lost", "here", "Nix ended with status 100"))
        self.assertEqual(fault_of(b"error: ", "copy", 1, "there").cause, "Nix ended with status 1")

    def test_what_the_table_does_not_know_is_lost(self) -> None:
        self.assertEqual(there(b"error: something new", END), ("lost", "machine", "something new"))
        self.assertEqual(here(b"error: something new"), ("lost", "here", "something new"))

    def test_the_first_message_is_the_cause(self) -> None:
        fault = fault_of(
            b"error: cannot connect to 'one'\nerror: the cause\nerror: what came of it\n", "copy", 1, "there"
        )
        self.assertEqual(fault.cause, "the cause")

    def test_what_only_says_that_there_was_one(self) -> None:
        self.assertEqual(
            fault_of(b"error: cannot connect to 'one'\n", "connect", 1, "there").cause, "cannot connect to 'one'"
        )

    def test_another_try_is_for_connections_alone(self) -> None:
        words = b"ssh: connect to host one port 22: Connection refused\r\n"
        self.assertEqual(fault_of(words, "connect", 1, "there").answer, "again")
        self.assertEqual(fault_of(words, "copy", 1, "there").answer, "no")
        self.assertEqual(there(words.strip()).answer, "lost")

    def test_each_way_that_ssh_may_be_tried_again(self) -> None:
        for words in (
            b"kex_exchange_identification: read", b"Connection reset by peer", b"Connection closed by one",
            b"mux_client: Session open refused by peer",
        ):
            self.assertEqual(fault_of(words, "connect", 255, "there")[:2], ("again", "machine"), words)

    def test_each_way_that_it_may_not(self) -> None:
        for words in (
            b"Connection timed out", b"Timeout, server one not responding.", b"one: Permission denied (publickey).",
            b"No route to host", b"Host key verification failed.", b"Could not resolve hostname one",
            b"sh: nix-store: command not found",
        ):
            self.assertEqual(fault_of(words, "connect", 255, "there")[:2], ("no", "machine"), words)

    def test_this_store_is_to_blame(self) -> None:
        for words in (
            b"error: path '/nix/store/x' is not valid", b"error: path '/nix/store/x' does not exist in the store",
            b"error: cannot open connection to remote store 'daemon'", b"error: interrupted by the user",
        ):
            self.assertEqual(fault_of(words, "copy", 1, "there")[:2], ("no", "here"), words)

    def test_a_cause_is_one_line_of_ascii(self) -> None:
        fault = here(b"error: Verbindung getrennt \xe2\x80\x9cnein\xff\x80\x01\ta\\nb\x1b[0m\x00\r")
        self.assertEqual(fault.cause, "Verbindung getrennt ???nein??? a\\nb?[0m ")

    def test_bytes_of_any_encoding_in_a_derivation_s_name(self) -> None:
        name = b"/nix/store/\xff.drv".decode(errors="surrogateescape")
        line = b"error: build of '/nix/store/\xff.drv' on 'one' failed: builder for 'x' failed with exit code 5"
        self.assertEqual(there(line, drv=name).answer, "failed 5")

    def test_a_long_log_takes_no_long_time(self) -> None:
        log = b"a line of a log that has many of them\n" * 200_000
        self.assertEqual(
            fault_of(
                log + hook(builder(b"failed with exit code 3")) + b"\n" + END + b"\n", "build", 1, "there", DRV
            ).answer,
            "failed 3",
        )


if __name__ == "__main__":
    unittest.main()
