"""The account of a run: how each derivation stands behind its rounds, put into its folder and told."""

from typing import Dict, Mapping, NamedTuple, Optional, Sequence, Set

from . import history
from .events import Note, read_events
from .folder import Folder, say, write_error
from .gather import Store
from .here import Here
from .junit import junit
from .options import Options
from .page import Stand, page_data, page_text
from .park import Machine
from .report import Report, RoundText, Told
from .report_json import Sources, derivations, report_json
from .resume import Round
from .settings import store_folder
from .summary import counts_line, failures
from .trace import trace


def _is_full(notes: Sequence[Note]) -> bool:
    """Whether something was lost since this machine has no space left."""
    full = ["here", "no", "space", "left"]
    return any(note.words[0] == "lost" and note.words[2:6] == full for note in notes)


class _Read(NamedTuple):
    """How each derivation stands, and what is told of it."""

    report: Report
    sources: Sources
    notes: Sequence[Note]


class Account:
    """What there is to tell of the rounds of a run, of which more may come."""

    def __init__(
        self,
        options: Options,
        folder: Folder,
        machines: Mapping[int, Machine],
        here: Here,
        store: Store,
        rounds: Sequence[Round],
        nobuilder: Mapping[str, str],
    ) -> None:
        """`nobuilder` says of derivations that no machine may build why."""
        self._options = options
        self._folder = folder
        self._machines = machines
        self._here = here
        self._store = store
        self._rounds = rounds
        self._nobuilder = nobuilder
        # what is told at the run's end
        self._read: Optional[_Read] = None

    @property
    def _told(self) -> _Read:
        assert self._read is not None
        return self._read

    def _standing(self, count: int, running: int = 0) -> Report:
        """How each derivation stands behind so many rounds, of which one runs now, by its journal, where it is named."""
        report = Report(self._machines, self._options.keep_going)
        for number, one in enumerate(self._rounds[:count], 1):
            drvs = [(drv.path, [path for path, _ in drv.inputs]) for drv in one.drvs]
            text = history.read_whole(self._folder.at(f"journal.{number}")) if number == running else one.history
            report.add_round(number, RoundText(drvs, history.entries(text), one.left))
        return report

    def failed_by_itself(self, count: int) -> Set[str]:
        """What has failed behind so many rounds and isn't to be tried again."""
        return {
            path
            for path, one in self._standing(count).standing.items()
            if one.status == "failed" and (one.how.startswith(("status", "references")) or path in self._nobuilder)
        }

    async def read(self, status: int) -> int:
        """Reads what is told of all rounds. The status of the run, which else would have this one."""
        report = self._standing(len(self._rounds))
        notes = read_events(self._folder.at("events"))
        if status == 0 and not report.is_all_built:
            status = 1
        if status == 1 and _is_full(notes):
            say(f"the disk of {store_folder() or '/nix/store'} is full")
            status = 5
        self._read = _Read(report, self._sources(notes, await self._sizes()), notes)
        return status

    def _sources(self, notes: Sequence[Note], sizes: Mapping[str, int]) -> Sources:
        sources = Sources(Told(notes), sizes, self._nobuilder, self._folder.out)
        sources.parks = [one.machines or self._machines for one in self._rounds] or [self._machines]
        return sources

    def _known_sizes(self, copied: Set[str]) -> Dict[str, int]:
        known = {path: self._here.known_size(path) for path in copied}
        return {path: size for path, size in known.items() if size is not None}

    async def _sizes(self) -> Dict[str, int]:
        """The sizes as NAR of the paths that were copied, in bytes."""
        copied: Set[str] = set()
        for one in self._rounds:
            for entry in history.entries(one.history):
                if entry[0] == "started":
                    copied.update(entry[2:])
        found = self._known_sizes(copied)
        unknown = sorted(path for path in copied if path not in found)
        return {**found, **(await self._store.sizes(unknown) if unknown else {})}

    def put(self, status: int, rounds: int, interrupted: str) -> None:
        """Puts the report of so many rounds into the folder, also as JSON and for CI services, and the timeline."""
        report, sources, notes = self._told
        self._folder.put("report", report.text(rounds, interrupted).encode(errors="surrogateescape"))
        self._folder.put("report.json", report_json(report, sources, status, interrupted, rounds).encode())
        self._folder.put("junit.xml", junit(derivations(report, sources)).encode())
        if rounds > 0:
            self._folder.put("trace.json", trace(sources.parks, notes).encode())

    def put_page(self, stand: Stand, is_running: bool) -> None:
        """Puts the page of the rounds so far into the folder, where it may be written to. The last one runs now, or has a
        history; at the run's end it is of what the report tells."""
        known = self._read if stand.status is not None else None
        if known is None:
            report = self._standing(stand.rounds, stand.rounds if is_running else 0)
            notes = read_events(self._folder.at("events"))
            copied = {path for one in report.standing.values() for path in one.copied}
            known = _Read(report, self._sources(notes, self._known_sizes(copied)), notes)
        data = page_data(known.report, known.sources, known.notes, stand)
        self._folder.offer("index.html", page_text(data).encode())

    def tell(self, interrupted: str) -> None:
        """Says the counts and the failures."""
        more = f", interrupted by {interrupted}" if interrupted else ""
        report, sources, _ = self._told
        lines = [counts_line(report.counts()) + more, *failures(report, sources)]
        write_error("".join(line + "\n" for line in lines))
