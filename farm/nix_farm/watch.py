"""`farm/watch`: how far the run in a folder is, from elsewhere."""

import os
import sys
import time
from typing import Dict, Sequence

from .display import Display
from .events import read_note
from .folder import goes_on_in, write_error, write_out
from .park import read_park

# The seconds between two looks.
_BEAT = 0.2


def _uris(folder: str) -> Dict[str, str]:
    try:
        with open(f"{folder}/park", encoding="utf-8", errors="replace") as text:
            return {str(number): machine.uri for number, machine in read_park(text.read()).items()}
    except OSError:
        return {}


def _watch(folder: str) -> None:
    display = Display(folder, lambda: _uris(folder), write_error, sys.stderr.isatty())
    begun = ""
    with open(f"{folder}/events", encoding="utf-8", errors="replace") as events:
        while True:
            is_last = not goes_on_in(folder)
            for part in events:
                begun += part
                if begun.endswith("\n"):
                    note, begun = read_note(begun), ""
                    if note is not None:
                        display.hear(note)
            if is_last:
                display.end()
                return
            display.show()
            time.sleep(_BEAT)


def main(words: Sequence[str], page: str) -> int:
    """`farm/watch`: its status."""
    if list(words[:1]) in (["-h"], ["--help"]):
        write_out(page.strip("\n") + "\n")
        return 0
    if len(words) != 1 or words[0].startswith("-"):
        print("usage: nix-dispatch watch FOLDER", file=sys.stderr)
        return 2
    folder = os.path.abspath(words[0])
    try:
        _watch(folder)
    except OSError as error:
        print(f"watch: {error.filename}: {error.strerror}", file=sys.stderr)
        return 5
    except KeyboardInterrupt:
        return 130
    return 0
