#!/usr/bin/env python3
"""Looks at pages of runs in a headless Chromium:  look.py FOLDER

FOLDER has the folders that made.py makes, each with the name of its kind. `look.py FOLDER PICTURE` keeps a picture of the
page of the run in a folder.
"""

import json
import os
import shutil
import sys
import urllib.parse
from typing import Any, Dict, List

from browser import Browser

# The milliseconds in which a page is drawn, and how often that is tried.
DRAWN = 1000
TRIES = 8


class Look:
    """The pages of a folder, in a browser."""

    def __init__(self, folder: str, browser: Browser) -> None:
        self.folder, self.browser = folder, browser
        self.said: List[str] = []

    def want(self, what: str, holds: object) -> None:
        if not holds:
            raise SystemExit(f"page: {what}: {self.browser.errors}")

    def open(self, kind: str, width: int = 1100, height: int = 900, dark: bool = False, mobile: bool = False, more: str = "") -> float:
        """Opens a page: the milliseconds until it is drawn. It asks for nothing else, and says nothing."""
        self.browser.look(width, height, dark, mobile)
        took = self.browser.open(f"{self.folder}/{kind}/index.html{more}")
        self.want(f"{kind} asks for {self.browser.asked}", len(self.browser.asked) == 1)
        self.want(f"{kind} has errors", not self.browser.errors)
        return took

    def report(self, kind: str) -> Any:
        with open(f"{self.folder}/{kind}/report.json", encoding="utf-8") as text:
            return json.load(text)

    def texts(self, select: str) -> List[str]:
        """The texts of the elements that a selector finds."""
        return self.browser.value(f"[...document.querySelectorAll({json.dumps(select)})].map(one => one.textContent)")

    def count(self, select: str) -> int:
        return self.browser.value(f"document.querySelectorAll({json.dumps(select)}).length")

    def search(self, words: str) -> str:
        """Types words into the search: how many were found."""
        self.browser.value("document.getElementById('search').focus(); document.getElementById('search').select()")
        self.browser.call("Input.insertText", text=words)
        return self.texts("#found")[0]

    def counts(self, kind: str) -> None:
        """That the counts are those of the report."""
        found = [int(word) for word in self.texts("#counts b")]
        counts: Dict[str, int] = self.report(kind)["counts"]
        names = ("built", "failed", "cancelled", "leased", "waiting", "total")
        self.want(f"the counts of {kind} are {found}", found == [counts[name] for name in names])

    def bars(self, kind: str) -> None:
        """That there is a bar for each copy and build of the trace, and a row for each slot."""
        with open(f"{self.folder}/{kind}/trace.json", encoding="utf-8") as text:
            trace = json.load(text)
        wanted = sum(one["ph"] == "X" for one in trace)
        slots = sum(one["name"] == "thread_name" for one in trace)
        bars, rows = self.count("svg .bar"), self.count(".names div")
        self.want(f"{kind} has {bars} bars on {rows} rows", bars == wanted and rows == slots)
        copies = sum(one["name"].startswith("copy ") for one in trace)
        self.want(f"{kind} has {self.count('svg .bar.copy')} copies", self.count("svg .bar.copy") == copies)
        self.said.append(f"{kind}: {bars} bars on {rows} rows")

    def drawn(self) -> None:
        """That it takes less than a second until all can be seen, as the page measures it; on a machine that has other work
        for its processors, that it takes less than a second of one."""
        took: List[float] = []
        processor: List[float] = []
        while not took or (min(took) >= DRAWN and len(took) < TRIES):
            before = self.browser.processor()
            took.append(self.open("large"))
            processor.append(1000 * (self.browser.processor() - before))
        is_busy = os.getloadavg()[0] > (os.cpu_count() or 1)
        told = f"drawn in {min(took):.0f} ms, by {min(processor):.0f} ms of a processor"
        self.want(f"large: {told}", min(took) < DRAWN or (is_busy and min(processor) < DRAWN))
        self.said.append(f"large: {told}" + (", on a busy machine" if is_busy else ""))

    def large(self) -> None:
        self.drawn()
        self.counts("large")
        self.bars("large")
        derivations = self.report("large")["derivations"]
        for words in ("openssl", "OPENSSL m03", "failed with exit code", "no such name"):
            texts = [
                " ".join(str(one[name]) for name in ("derivation", "status", "machine", "cause")).lower() for one in derivations
            ]
            wanted = sum(all(word in text for word in words.lower().split()) for text in texts)
            found = self.search(words)
            self.want(f"the search for {words!r} finds {found}", found == f"{wanted} of 5000 derivations")
        self.want("the search isn't in the address", "q=no+such+name" in self.browser.value("location.hash"))
        self.search("")
        self.browser.value("document.querySelector('#counts .cancelled').click()")
        cancelled = sum(one["status"] == "cancelled" for one in derivations)
        self.want("not the cancelled ones are shown", self.texts("#found") == [f"{cancelled} of 5000 derivations"])
        self.browser.value("document.getElementById('more').click()")
        self.want("not all of them are listed", self.count("#derivations td.status.cancelled") == cancelled)

    def small(self) -> None:
        self.open("small")
        self.counts("small")
        self.bars("small")
        failed = [one for one in self.report("small")["derivations"] if one["status"] == "failed"]
        self.want("not each failure is shown", self.count(".failure") == len(failed) == 1)
        self.want("its log isn't shown", "has no member named 'line'" in self.texts(".failure pre")[0])
        log = urllib.parse.unquote(self.browser.value("document.querySelector('.failure a').href"))
        self.want(f"there is no {log}", os.path.isfile(log[len("file://") :]))
        self.want("a machine that was lost isn't told", any("Down from " in text for text in self.texts("#machines .quiet")))
        self.want("the second round isn't marked", self.count("svg .mark") == 1 and self.count("svg .outage") == 1)
        chain = len(self.texts("#chain td:first-child"))
        self.want(f"a chain of {chain}", chain > 3 and self.texts("#chain p")[0].startswith(f"{chain} builds"))
        self.hover()
        self.sort()

    def hover(self) -> None:
        """What a bar tells of itself."""
        self.browser.value("document.querySelector('#timeline').scrollIntoView()")
        place = self.browser.value(
            "(({x, y, width, height}) => ({x: x + width / 2, y: y + height / 2}))"
            "(document.querySelector('svg .bar.failed').getBoundingClientRect())"
        )
        self.browser.call("Input.dispatchMouseEvent", type="mouseMoved", **place)
        self.browser.soon("!document.getElementById('tip').hidden")
        head, *lines = self.texts("#tip > *")
        self.want(f"a bar tells {head} {lines}", head.startswith("binutils-") and lines[0] == "Build: failed" and len(lines) == 4)
        self.browser.call("Input.dispatchMouseEvent", type="mouseMoved", x=1, y=1)

    def sort(self) -> None:
        """What took longest comes first where that is asked for."""
        self.browser.value("document.querySelector('#derivations th:nth-child(3) button').click()")
        at = [one["end"] - one["begin"] for one in self.report("small")["derivations"] if one["begin"] is not None]
        first = self.texts("#derivations td.number")[0]
        minutes, seconds = divmod(round(max(at) / 1000), 60)
        self.want(f"the first one took {first}", first == f"{minutes}:{seconds:02}")

    def odd(self) -> None:
        """What would be markup is text."""
        self.open("odd")
        self.counts("odd")
        names = self.texts(".failure h3")
        self.want(f"the failures are {names}", names == ["<script>", "<img-src=x-onerror=taken()>"])
        said = self.texts(".failure pre")[0]
        self.want(f"the log is {said!r}", said.endswith("</pre><b>bold</b><script>taken()</script> red "))
        causes = self.texts(".failure p:nth-of-type(2)")
        self.want(f"the causes are {causes}", causes[0].startswith("</script><script>document.title='taken'</script><!--"))
        self.want("a machine's name is markup", "ssh://<b>bold</b>.example.org" in self.texts("#machines td:first-child")[1])
        for select, wanted in (("script", 2), ("img", 0), ("body b:not(#counts b, .names b, #tip b)", 0), ("h1", 1), ("title", 1)):
            self.want(f"{self.count(select)} elements {select}", self.count(select) == wanted)
        self.want("the title was taken", "taken" not in self.browser.value("document.title"))
        found = self.search("<script>")
        self.want(f"the search finds {found}", found == "3 of 4 derivations")

    def phone(self) -> None:
        """On a phone, in the dark: nothing is wider than the screen, and the colours are others."""
        self.open("small")
        light = self.browser.value("getComputedStyle(document.body).backgroundColor")
        for kind in ("small", "large", "odd", "going"):
            self.open(kind, 390, 844, dark=True, mobile=True)
            wide = self.browser.value("document.documentElement.scrollWidth")
            self.want(f"{kind} is {wide} wide on a phone", wide <= 390)
        dark = self.browser.value("getComputedStyle(document.body).backgroundColor")
        self.want(f"the page is {light} and {dark}", light == "rgb(255, 255, 255)" and dark != light)

    def going(self) -> None:
        """A page of a run that goes on is read again, with what was searched for; one that isn't written is told."""
        self.open("killed")
        self.browser.soon("!document.getElementById('stale').hidden")
        self.open("going", more="#q=zlib&zoom=4")
        self.want("no build is in progress", self.count("svg .bar.running") > 0 and "Running for" in self.texts("#state")[0])
        self.want("it says that it was killed", self.browser.value("document.getElementById('stale').hidden"))
        self.want("the zoom is lost", self.browser.value("document.querySelector('.plot').style.width") == "400%")
        found = self.texts("#found")
        shutil.copy(f"{self.folder}/small/index.html", f"{self.folder}/going/index.html")
        self.browser.soon("document.getElementById('follow').hidden && document.documentElement.dataset.drawn")
        self.want("the search is lost", self.texts("#found") == found and self.browser.value("kept.q") == "zlib")


def main() -> None:
    browser = Browser()
    folder = os.path.abspath(sys.argv[1])
    try:
        browser.zone("UTC")
        if len(sys.argv) > 2:
            browser.look(960, 900)
            browser.open(f"{folder}/index.html")
            browser.picture(sys.argv[2], browser.value("document.querySelector('#chain tr:nth-child(8)').offsetTop + chain.offsetTop"))
            return
        look = Look(folder, browser)
        for part in (look.large, look.small, look.odd, look.phone, look.going):
            part()
        print("\n".join(look.said))
    finally:
        browser.close()


if __name__ == "__main__":
    main()
