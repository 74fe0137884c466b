"""The ends of the logs of builds that failed, as a page and a file for machines show them."""

import os
import re
from typing import List

from .display import last_lines

# How much of a line is shown, in characters.
_LONGEST = 1000
# What a terminal is told by, and what else can't be seen.
_UNSEEN = re.compile(r"\x1b\[[0-9;?]*[A-Za-z]|\x1b\][^\x07\x1b]*(?:\x07|\x1b\\)|[\x00-\x08\x0b-\x1f\x7f]")


def log_end(log: object) -> List[str]:
    """The last lines of the builder of a derivation, else of what Nix said of it, by the name that the report has for its
    log; none where that is the log of a slot, which has those of other builds, too."""
    if not isinstance(log, str) or os.path.basename(os.path.dirname(log)) != "logs" or not log.endswith(".log"):
        return []
    lines = last_lines(log[: -len("log")] + "last") or last_lines(log)
    return [_shown(line) for line in lines]


def _shown(line: str) -> str:
    line = _UNSEEN.sub("", line)
    return line if len(line) <= _LONGEST else f"{line[:_LONGEST]} .."
