"""Tests of the farm, over stand-ins of Nix's commands: `python3 -m unittest discover -s farm/tests -t farm`."""

import os
import unittest
from typing import Any

from .parallel import SideBySide, each


def load_tests(loader: unittest.TestLoader, tests: Any, pattern: Any) -> unittest.TestSuite:
    """All tests as one suite, which runs a few of them at once."""
    return SideBySide(each(loader.discover(os.path.dirname(__file__), pattern or "test*.py")))
