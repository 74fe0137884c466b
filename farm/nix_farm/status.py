"""`farm/status`: how the run in a folder stands, while it goes on or behind it."""

import json
import os
import sys
import time
from typing import List, Mapping, Sequence

from . import history, nobuilder
from .display import Display
from .errors import GivenUp
from .events import Note, read_events
from .folder import Seen, goes_on_in, write_out
from .options import Options
from .park import read_park
from .report import Report, RoundText, Told
from .report_json import Sources
from .resume import Other, Round, rounds_of
from .settings import told_of_text
from .summary import counts_line, failures, failures_of_json


def _read(folder: Seen, name: str) -> str:
    try:
        with open(folder.at(name), encoding="utf-8", errors="surrogateescape") as text:
            return text.read()
    except OSError:
        return ""


def _ended(folder: Seen) -> List[str]:
    """How a run stands that has ended, by its report."""
    told = json.loads(_read(folder, "report.json"))
    rounds = f" behind {told['rounds']} rounds" if told["rounds"] > 1 else ""
    lines = [f"{folder.out}: ended with status {told['status']}{rounds}", counts_line(told["counts"])]
    return lines + failures_of_json(told["derivations"])


def _standing(folder: Seen, rounds: Sequence[Round], told: Mapping[str, Sequence[str]], notes: Sequence[Note]) -> List[str]:
    """The counts and the failures of a run that hasn't ended, by what its rounds have."""
    machines = read_park(_read(folder, "park"))
    report = Report(machines, told.get("keep-going") == ["1"])
    for number, one in enumerate(rounds, 1):
        drvs = [(drv.path, [path for path, _ in drv.inputs]) for drv in one.drvs]
        report.add_round(number, RoundText(drvs, history.entries(one.history), one.left))
    options = Options()
    for name in ("system", "extra", "features", "jobs"):
        setattr(options, name, (told.get(name) or [""])[0])
    able = nobuilder.abilities(options, "\n".join(told.get("builders", [])))
    never = nobuilder.reasons(rounds[0].drvs if rounds else [], able)
    sources = Sources(Told(notes), {}, never, folder.out)
    sources.parks = [one.machines or machines for one in rounds]
    return [counts_line(report.counts()), *failures(report, sources)]


def _doing(folder: Seen, notes: Sequence[Note]) -> List[str]:
    """What goes on, and which machines are down."""
    uris = {str(number): machine.uri for number, machine in read_park(_read(folder, "park")).items()}
    said: List[str] = []
    display = Display(folder.out, lambda: uris, said.append, False)
    for note in notes:
        if note.words[0] in ("round", "again"):
            said.clear()
        display.hear(note)
    down = [line.rstrip("\n") for line in said if line.startswith("down: ")]
    return [*display.doing(), *down]


def _status(folder: Seen) -> List[str]:
    goes_on = goes_on_in(folder.out)
    told = told_of_text(_read(folder, ".unfinished"))
    if not goes_on and not told:
        return _ended(folder)
    last = 0
    while os.path.lexists(folder.at(f"bundle.{last + 1}")):
        last += 1
    rounds, notes = rounds_of(folder, last), read_events(folder.at("events"))
    begun = [note.at for note in notes if note.words[0] in ("round", "again")]
    since = time.strftime(" since %Y-%m-%d %H:%M:%S", time.localtime(begun[-1] / 1000)) if begun else ""
    if not goes_on:
        why = "it was interrupted or killed, and the same command with the same -o goes on with it"
        return [f"{folder.out}: isn't finished: {why}", *_standing(folder, rounds, told, notes)]
    head = f"{folder.out}: goes on, in round {last}{since}" if last else f"{folder.out}: begins"
    counts, *failed = _standing(folder, rounds, told, notes)
    return [head, counts, *_doing(folder, notes), *failed]


def main(words: Sequence[str], page: str) -> int:
    """`farm/status`: its status."""
    if list(words[:1]) in (["-h"], ["--help"]):
        write_out(page.strip("\n") + "\n")
        return 0
    if len(words) != 1 or words[0].startswith("-"):
        print("usage: nix-dispatch status FOLDER", file=sys.stderr)
        return 2
    folder = Seen(os.path.abspath(words[0]))
    try:
        lines = _status(folder)
    except (OSError, ValueError, KeyError, Other, GivenUp):
        print(f"status: {folder.out} is no folder of a run, or can't be read", file=sys.stderr)
        return 5
    write_out("".join(line + "\n" for line in lines))
    return 0
