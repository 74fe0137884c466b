#!/usr/bin/env python3
"""Makes the folder of a run that never was, with its page:  made.py FOLDER KIND

KIND is `large` (5,000 derivations on 64 slots), `small` (140 on 16, with failures, a machine that is lost and a second
round), `going` (the same, which is in its first round now), `killed` (the same, which was so long ago) or `odd` (names,
machines, causes and logs that are markup). What is printed are the processor seconds that the page took.
"""

import hashlib
import heapq
import os
import random
import sys
import time
from typing import Dict, List, NamedTuple, Optional, Sequence, Set, Tuple

TOP = os.path.dirname(os.path.dirname(os.path.dirname(os.path.abspath(__file__))))
sys.path.insert(0, os.path.join(TOP, "farm"))

from nix_farm.events import read_events  # noqa: E402  (the package lies in farm)
from nix_farm.junit import junit  # noqa: E402
from nix_farm.page import Stand, page_data, page_text  # noqa: E402
from nix_farm.park import Machine  # noqa: E402
from nix_farm.report import Report, RoundText, Told  # noqa: E402
from nix_farm.report_json import Sources, derivations, report_json  # noqa: E402
from nix_farm.trace import trace  # noqa: E402

LETTERS = "0123456789abcdfghijklmnpqrsvwxyz"
# 2026-02-03 09:00:00 UTC, in milliseconds
BEGAN = 1_770_109_200_000
WORDS = (
    "zlib openssl curl perl python3 glib gcc binutils cmake ninja meson bison flex expat libxml2 libpng freetype cairo pango gtk"
    " qtbase dbus systemd util-linux coreutils bash gawk grep sed findutils diffutils gnutar gzip xz bzip2 zstd sqlite postgresql"
    " boost icu llvm rustc cargo go nodejs ruby lua tcl readline ncurses gmp mpfr libmpc isl texinfo groff man-db less file"
).split()
SAID = (
    "building '{}'\nunpacking sources\nconfiguring\nbuilding\ncc -O2 -c -o lex.o lex.c\ncc -O2 -c -o parse.o parse.c\n"
    "parse.c: In function 'take':\nparse.c:118:12: error: 'struct token' has no member named 'line'\n"
    "  118 |   return at->line < end;\n      |            ^~\nmake: *** [Makefile:31: parse.o] Error 1\n"
)


def store_path(name: str) -> str:
    number = int.from_bytes(hashlib.sha256(name.encode()).digest()[:20], "big")
    return "/nix/store/" + "".join(LETTERS[number >> (5 * at) & 31] for at in range(32)) + "-" + name


class Made(NamedTuple):
    """A derivation: its path, the places of its inputs, how long it takes in milliseconds, and whether it is built then."""

    path: str
    inputs: List[int]
    takes: int
    is_good: bool


class Break(NamedTuple):
    """A machine that is lost, and when."""

    machine: int
    at: int


def graph(count: int, failing: Sequence[int], chance: random.Random) -> List[Made]:
    """Derivations, each behind its inputs, of which these fail."""
    found: List[Made] = []
    for at in range(count):
        name = f"{WORDS[at % len(WORDS)]}-{1 + at // len(WORDS)}.{chance.randrange(20)}.{chance.randrange(10)}"
        reach = max(20, count // 12)
        inputs = sorted({chance.randrange(max(0, at - reach), at) for _ in range(chance.randrange(4))}) if at else []
        takes = int(min(240_000, chance.lognormvariate(9.2, 1.0)))
        found.append(Made(store_path(f"{name}.drv"), inputs, takes, at not in failing))
    return found


class Run:
    """A run that is made up: its events and histories, as agents and the program would write them."""

    def __init__(
        self, drvs: List[Made], park: Sequence[Tuple[str, int]], chance: random.Random, began: int = BEGAN
    ) -> None:
        """`park` has the URI and the slots of each machine, this one first."""
        self.drvs = drvs
        self.machines = {at: Machine(at, uri, "", "", list(range(jobs))) for at, (uri, jobs) in enumerate(park) if jobs}
        self.chance = chance
        self.now = began
        self.built: Set[int] = set()
        self.failed: Set[int] = set()
        self.events: List[Tuple[int, str]] = []
        self.rounds: List[RoundText] = []
        self.sizes = {store_path(f"source-{at}"): chance.randrange(10_000, 40_000_000) for at in range(40)}

    def note(self, at: int, place: str, words: str) -> None:
        self.events.append((at, f"{at} {place} {words}\n"))

    def wanted(self) -> List[int]:
        """What is left and depends on nothing that failed."""
        barred: Set[int] = set()
        for at, one in enumerate(self.drvs):
            if at in self.failed or barred.intersection(one.inputs):
                barred.add(at)
        return [at for at in range(len(self.drvs)) if at not in self.built and at not in barred]

    def round(self, breaks: Optional[Break] = None, until: Optional[int] = None) -> None:
        """A round over what is left, or what had come of it by a time."""
        wanted = self.wanted() if self.rounds else list(range(len(self.drvs)))
        self.note(self.now, "- -", f"round {len(self.rounds) + 1} {len(wanted)}")
        history = _Round(self, wanted, breaks, until).run()
        drvs = [(self.drvs[at].path, [self.drvs[one].path for one in self.drvs[at].inputs]) for at in wanted]
        self.rounds.append(RoundText(drvs, history, [self.drvs[at].path for at in sorted(self.failed)] if self.rounds else []))
        self.now += 1000


class _Round:
    """What happens in a round: whatever is ready goes to a free slot."""

    def __init__(self, run: Run, wanted: Sequence[int], breaks: Optional[Break], until: Optional[int]) -> None:
        self.of, self.breaks, self.until = run, breaks, until
        self.place = {at: place for place, at in enumerate(wanted)}
        self.lacks = {at: sum(one in self.place for one in run.drvs[at].inputs) for at in wanted}
        self.above: Dict[int, List[int]] = {}
        for at in wanted:
            for one in run.drvs[at].inputs:
                self.above.setdefault(one, []).append(at)
        self.ready = [at for at in wanted if not self.lacks[at]]
        self.free = [(number, slot) for number, machine in run.machines.items() for slot in machine.slots]
        self.busy: List[Tuple[int, int, Tuple[int, int], str]] = []
        self.gone: Set[int] = set()
        self.history = [["nix-dispatch-history", "1"]]

    def run(self) -> List[List[str]]:
        while True:
            while self.ready and self.free:
                self.begin(self.ready.pop(0), self.free.pop(self.of.chance.randrange(len(self.free))))
            if not self.busy or (self.until is not None and self.busy[0][0] > self.until):
                return self.history
            self.of.now, at, place, how = heapq.heappop(self.busy)
            self.end(at, place, how)

    def enter(self, kind: str, at: int, *words: str) -> None:
        self.history.append([kind, str(self.place[at]), *words])

    def begin(self, at: int, place: Tuple[int, int]) -> None:
        """A lease that begins now."""
        run, one, slot = self.of, self.of.drvs[at], f"{place[0]} {place[1]}"
        now = run.now + run.chance.randrange(5, 60)
        self.enter("chosen", at, *map(str, place))
        copied = sorted(run.chance.sample(sorted(run.sizes), run.chance.randrange(4))) if place[0] else []
        if copied:
            run.note(now, slot, f"copy {len(copied)} {one.path}")
            now += run.chance.randrange(200, 4000)
            run.note(now, slot, "copied 0")
        self.enter("started", at, *copied)
        run.note(now, slot, f"begin {one.path}")
        end, how = now + one.takes, "ok" if one.is_good else "failed"
        if self.breaks is not None and place[0] == self.breaks.machine and end > self.breaks.at:
            end, how = max(now + 300, self.breaks.at), "lost"
        heapq.heappush(self.busy, (end, at, place, how))

    def end(self, at: int, place: Tuple[int, int], how: str) -> None:
        """A lease that ends now."""
        run, path, slot = self.of, self.of.drvs[at].path, f"{place[0]} {place[1]}"
        run.note(run.now, slot, f"end {path} {0 if how == 'ok' else 100}")
        if how == "ok":
            run.built.add(at)
            self.enter("built", at, "o")
            for one in self.above.get(at, []):
                self.lacks[one] -= 1
                if not self.lacks[one] and one in self.place:
                    self.ready.append(one)
        elif how == "failed":
            run.failed.add(at)
            run.note(run.now, slot, f"failed {path} 1 builder builder for '{path}' failed with exit code 1")
            self.enter("failed", at, "status", "1")
        else:
            run.note(run.now, slot, f"lost {path} machine the connection to the machine ended")
            self.enter("failed", at, "lost")
            if place[0] not in self.gone:
                run.note(run.now + 10, slot, "no machine ssh: connect to host arm.example.org port 22: No route to host")
                self.gone.add(place[0])
                self.free = [one for one in self.free if one[0] not in self.gone]
        if place[0] not in self.gone:
            self.free.append(place)


def odd() -> Run:
    """A run with names, machines and causes that would be markup, were they not text."""
    park = [("local", 1), ("ssh://<b>bold</b>.example.org", 1)]
    names = ["<script>", "<img-src=x-onerror=taken()>", "&lt;b&gt;-\"quoted\"-'1.0'", "</title><h1>heading"]
    drvs = [Made(store_path(f"{name}.drv"), [0] if at == 3 else [], 2000, at not in (0, 1)) for at, name in enumerate(names)]
    run = Run(drvs, park, random.Random(1))
    run.round()
    cause = "</script><script>document.title='taken'</script><!--<script>"
    run.events = [(at, line.replace("builder for", f"{cause} builder for")) for at, line in run.events]
    return run


def made(kind: str) -> Tuple[Run, int, Optional[int]]:
    """A run, the time at which it is looked at, and the status that it has ended with by then."""
    if kind == "odd":
        run = odd()
        return run, run.now, 1
    chance = random.Random(3)
    if kind == "large":
        park = [("local", 4), *((f"ssh://builder@m{number:02}.example.org", 6) for number in range(1, 11))]
        run = Run(graph(5000, [700, 2100, 4400], chance), park, chance)
        run.round()
        return run, run.now, 1
    park = [("local", 2), ("ssh://builder@big.example.org", 6), ("ssh://builder@mid.example.org", 4), ("ssh://builder@arm.example.org", 4)]
    began = int(time.time() * 1000) - 150_000 if kind == "going" else BEGAN
    run = Run(graph(140, [66], chance), park, chance, began)
    breaks = Break(3, began + 70_000)
    if kind in ("going", "killed"):
        run.round(breaks, began + 150_000)
        return run, began + 150_000, None
    run.round(breaks)
    run.round()
    return run, run.now, 1


def write(folder: str, run: Run, now: int, status: Optional[int]) -> float:
    """The folder of a run as it is at a time: the processor seconds that its page took."""
    os.makedirs(f"{folder}/logs")
    with open(f"{folder}/events", "w", encoding="utf-8") as events:
        events.writelines(line for at, line in sorted(run.events, key=lambda one: one[0]) if at <= now)
    for at in run.failed:
        path = run.drvs[at].path
        said = SAID.format(path) + ("</pre><b>bold</b><script>taken()</script>\x1b[31m red\x1b[0m \x00\n" if "<" in path else "")
        for end in ("log", "last"):
            with open(f"{folder}/logs/{os.path.basename(path)}.{end}", "w", encoding="utf-8") as log:
                log.write(said)
    begun = time.process_time()
    report = Report(run.machines, keep_going=True)
    for number, one in enumerate(run.rounds, 1):
        report.add_round(number, one)
    notes = read_events(f"{folder}/events")
    sources = Sources(Told(notes), run.sizes, {}, folder)
    sources.parks = [run.machines for _ in run.rounds]
    stand = Stand(len(run.rounds), now, status, every=0.0 if status is not None else 5.0)
    page = page_text(page_data(report, sources, notes, stand))
    took = time.process_time() - begun
    texts = {"index.html": page, "report": report.text(len(run.rounds), "")}
    if status is not None:
        texts["report.json"] = report_json(report, sources, status, "", len(run.rounds))
        texts["junit.xml"] = junit(derivations(report, sources))
        texts["trace.json"] = trace(sources.parks, notes)
    for name, text in texts.items():
        with open(f"{folder}/{name}", "w", encoding="utf-8") as file:
            file.write(text)
    return took


if __name__ == "__main__":
    print(f"{write(os.path.abspath(sys.argv[1]), *made(sys.argv[2])):.3f}")
