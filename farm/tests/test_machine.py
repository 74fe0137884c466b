"""How often a machine is asked, and when."""

import asyncio
import tempfile
import unittest
from typing import Any, List, Mapping, Optional, Sequence

from nix_farm.blame import Fault
from nix_farm.machine import TRIES, Connections
from nix_farm.park import Machine
from nix_farm.process import Ended

REFUSED = Ended(1, b"", b"ssh: connect to host one port 22: Connection refused\r\nerror: cannot connect to 'one'\n")
DENIED = Ended(1, b"", b"one: Permission denied (publickey).\r\nerror: cannot connect to 'one'\n")
ANSWERED = Ended(0, b"", b"Store URL: /one\n")


class Commands:
    """Answers each command by the next of these ends; the last one stays."""

    def __init__(self, *ends: Ended) -> None:
        self._ends = list(ends)
        self.words: List[Sequence[str]] = []

    async def run(
        self, words: Sequence[str], env: Optional[Mapping[str, str]] = None, bound: Optional[float] = None
    ) -> Ended:
        self.words.append(words)
        await asyncio.sleep(0)
        return self._ends.pop(0) if len(self._ends) > 1 else self._ends[0]


class Loop(asyncio.SelectorEventLoop):
    """A loop in which waits go by at once, and are kept."""

    def __init__(self) -> None:
        super().__init__()
        self.waits: List[float] = []

    def call_later(self, delay: float, callback: Any, *given: Any, **named: Any) -> Any:
        self.waits.append(delay)
        return super().call_later(0, callback, *given, **named)


class Asked(unittest.TestCase):
    def setUp(self) -> None:
        folder = tempfile.TemporaryDirectory()
        self.addCleanup(folder.cleanup)
        self.folder = folder.name
        self.waits: List[float] = []
        self.words: List[Sequence[str]] = []

    def connect(self, ends: Sequence[Ended], *rounds: Sequence[int], shut_out: str = "") -> List[List[Optional[Fault]]]:
        """What the slots hear that ask at once, in each of so many rounds, from a machine that answers so."""

        async def ask() -> List[List[Optional[Fault]]]:
            commands: Any = Commands(*ends)
            connections = Connections(Machine(1, "/one", "", "", list(range(9))), commands, self.folder, 10, 0, 8)
            connections.shut_out = shut_out
            heard = []
            for slots in rounds:
                connections.begin_round()
                asked = [connections.connect(slot, lambda said: None) for slot in slots]
                heard.append(list(await asyncio.gather(*asked)))
            self.words = commands.words
            return heard

        loop = Loop()
        try:
            return loop.run_until_complete(ask())
        finally:
            self.waits = loop.waits
            loop.close()

    def test_a_machine_that_refuses_is_asked_six_times(self) -> None:
        ((fault,),) = self.connect([REFUSED], [0])
        assert fault is not None
        self.assertEqual((fault.answer, fault.who), ("no", "machine"))
        self.assertEqual((TRIES, len(self.words), len(self.waits)), (6, 6, 5))
        for number, seconds in enumerate(self.waits, 1):
            self.assertTrue(0.1 * 2**number <= seconds <= 0.3 * 2**number, self.waits)

    def test_one_that_answers_then_is_up(self) -> None:
        self.assertEqual(self.connect([REFUSED, REFUSED, ANSWERED], [0]), [[None]])
        self.assertEqual(len(self.words), 3)

    def test_what_does_not_help_is_not_tried_again(self) -> None:
        self.connect([DENIED], [0])
        self.assertEqual(len(self.words), 1)

    def test_slots_that_ask_at_once_hear_one_answer(self) -> None:
        for end in (ANSWERED, DENIED):
            (faults,) = self.connect([end], [0, 1, 2, 3])
            self.assertEqual(len(set(faults)), 1)
            self.assertEqual(len(self.words), 1)

    def test_it_is_asked_anew_in_each_round(self) -> None:
        first, second = self.connect([DENIED, ANSWERED], [0], [0])
        self.assertIsNotNone(first[0])
        self.assertEqual(second, [None])

    def test_one_that_is_shut_out_is_not_asked(self) -> None:
        why = "to blame in two rounds: gone"
        self.assertEqual(self.connect([ANSWERED], [0], shut_out=why), [[Fault("no", "machine", why)]])
        self.assertEqual(self.words, [])


if __name__ == "__main__":
    unittest.main()
