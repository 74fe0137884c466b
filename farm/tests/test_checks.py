"""What the checks on real Nix stand on: a case for each promise, and machines whose commands may be stopped."""

import os
import re
import signal
import subprocess
import sys
import time
import unittest
from typing import List, Set

from tests.world import FARM

TOP = os.path.dirname(FARM)
ENTER = os.path.join(TOP, "checks", "apart", "enter.py")


def text(*names: str) -> str:
    with open(os.path.join(TOP, *names), encoding="utf-8") as file:
        return file.read()


def rows() -> List[str]:
    """The rows of the table of failures."""
    _, _, behind = text("docs", "FARM.md").partition("\n## What a failure looks like\n")
    table = [line for line in behind.partition("\n## ")[0].split("\n") if line.startswith("| ")]
    return table[1:]


def promises() -> List[str]:
    return [line for line in text("checks", "promises").split("\n") if line and not line.startswith("#")]


def run_cases() -> Set[str]:
    """The cases that the two scripts run where none is named."""
    bad_day = re.search(r"(?m)^all='(.*)'$", text("checks", "bad-day.sh"))
    apart = re.search(r"(?m)^lanes='(.*)'$", text("checks", "apart.sh"))
    assert bad_day is not None and apart is not None
    return {*bad_day[1].split(), *re.split("[ ,]", apart[1])}


def functions() -> Set[str]:
    """The functions of the scripts."""
    scripts = ["bad-day.sh", "bad-day/killed.sh", "bad-day/ends.sh", "apart.sh", "apart/nights.sh"]
    return {name for script in scripts for name in re.findall(r"(?m)^(\w+)\(\) \{", text("checks", script))}


class Promises(unittest.TestCase):
    def test_each_row_of_the_table_has_a_line(self) -> None:
        self.assertEqual(len(promises()), len(rows()), "checks/promises and the table of docs/FARM.md")

    def test_each_line_has_cases_that_are_run(self) -> None:
        for line in promises():
            cases = line.partition(": ")[2].split()
            self.assertTrue(cases, line)
            self.assertLessEqual(set(cases), run_cases(), line)

    def test_each_case_is_there(self) -> None:
        self.assertLessEqual(run_cases(), functions())


class Enter(unittest.TestCase):
    """A command in the namespaces of a process; here those that it is in anyway."""

    def entered(self, *words: str) -> "subprocess.Popen[str]":
        started = subprocess.Popen(
            [sys.executable, ENTER, str(os.getpid()), *words], stdout=subprocess.PIPE, stderr=subprocess.PIPE, text=True
        )
        self.addCleanup(started.stdout.close)
        self.addCleanup(started.stderr.close)
        return started

    def setUp(self) -> None:
        if os.geteuid() != 0 or self.entered("true").wait(60) != 0:
            self.skipTest("no namespace may be entered")

    def test_the_status_is_the_command_s(self) -> None:
        self.assertEqual(self.entered("sh", "-c", "exit 7").wait(60), 7)
        self.assertEqual(self.entered("sh", "-c", "kill -9 $$").wait(60), 137)
        self.assertEqual(self.entered("no-such-command-at-all").wait(60), 127)

    def test_a_command_that_is_stopped_and_goes_on(self) -> None:
        """It is waited for to its end, and not stopped with it."""
        started = self.entered("sh", "-c", "echo $$; read word < /dev/zero; sleep 300")
        inner = int(started.stdout.readline())
        os.kill(inner, signal.SIGSTOP)
        for _ in range(20):
            time.sleep(0.05)
            with open(f"/proc/{started.pid}/stat", encoding="ascii") as stat:
                self.assertNotEqual(stat.read().rpartition(") ")[2][0], "T")
        os.kill(inner, signal.SIGKILL)
        self.assertEqual(started.wait(60), 137)

    def test_a_process_that_is_gone(self) -> None:
        ended = subprocess.Popen(["true"])
        ended.wait()
        said = subprocess.run([sys.executable, ENTER, str(ended.pid), "true"], capture_output=True, text=True)
        self.assertEqual(said.returncode, 126)
        self.assertIn(f"enter: process {ended.pid}: No such file or directory", said.stderr)


if __name__ == "__main__":
    unittest.main()
