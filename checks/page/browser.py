"""A headless Chromium that is spoken with: its DevTools protocol over two pipes, by the standard library alone."""

import base64
import json
import os
import shutil
import subprocess
import tempfile
import time
from typing import Any, Dict, List, Optional

# The seconds that an answer may take.
PATIENCE = 120.0


class Browser:
    """One browser with one page, and what came of it: errors, and what it asked for."""

    def __init__(self, program: str = "chromium") -> None:
        self._profile = tempfile.mkdtemp(prefix="page-check.")
        to_browser, self._write = os.pipe()
        self._read, from_browser = os.pipe()
        words = [program, "--headless", "--no-sandbox", "--disable-gpu", "--remote-debugging-pipe", "--no-first-run"]
        words += ["--hide-scrollbars", f"--user-data-dir={self._profile}", "about:blank"]
        # the browser reads from descriptor 3, and writes to 4
        shell = ["sh", "-c", f'exec "$@" 3<&{to_browser} 4>&{from_browser}', "sh", *words]
        # a file, so that a full pipe holds nothing up
        self._said = open(f"{self._profile}/said", "wb")
        self._process = subprocess.Popen(
            shell, pass_fds=(to_browser, from_browser), stdin=subprocess.DEVNULL, stdout=self._said, stderr=self._said
        )
        os.close(to_browser)
        os.close(from_browser)
        os.set_blocking(self._read, False)
        self._begun = b""
        self._number = 0
        self._session: Optional[str] = None
        self.asked: List[str] = []
        self.errors: List[str] = []
        pages = [one for one in self.call("Target.getTargets")["targetInfos"] if one["type"] == "page"]
        self._session = self.call("Target.attachToTarget", targetId=pages[0]["targetId"], flatten=True)["sessionId"]
        for part in ("Page", "Runtime", "Network", "Log"):
            self.call(f"{part}.enable")
        self.call("Performance.enable", timeDomain="threadTicks")

    def close(self) -> None:
        self._process.kill()
        self._process.wait()
        for descriptor in (self._read, self._write):
            os.close(descriptor)
        self._said.close()
        shutil.rmtree(self._profile, ignore_errors=True)

    def _next(self) -> Dict[str, Any]:
        """The next message of the browser."""
        end = time.monotonic() + PATIENCE
        while b"\0" not in self._begun:
            try:
                part = os.read(self._read, 1 << 16)
            except BlockingIOError:
                if time.monotonic() > end:
                    raise TimeoutError("the browser doesn't answer") from None
                time.sleep(0.005)
                continue
            if not part:
                raise EOFError("the browser has ended")
            self._begun += part
        line, _, self._begun = self._begun.partition(b"\0")
        return json.loads(line)

    def _hear(self, told: Dict[str, Any]) -> None:
        kind, given = told.get("method", ""), told.get("params", {})
        if kind == "Network.requestWillBeSent":
            self.asked.append(given["request"]["url"])
        elif kind == "Runtime.exceptionThrown":
            self.errors.append(json.dumps(given["exceptionDetails"]))
        elif kind == "Log.entryAdded" and given["entry"]["level"] in ("error", "warning"):
            self.errors.append(given["entry"]["text"])
        elif kind == "Page.javascriptDialogOpening":
            self.errors.append(f"a dialog: {given['message']}")

    def call(self, method: str, **given: Any) -> Dict[str, Any]:
        self._number += 1
        words: Dict[str, Any] = {"id": self._number, "method": method, "params": given}
        if self._session is not None:
            words["sessionId"] = self._session
        left = json.dumps(words).encode() + b"\0"
        while left:
            left = left[os.write(self._write, left) :]
        while True:
            told = self._next()
            if told.get("id") != self._number:
                self._hear(told)
            elif "error" in told:
                raise RuntimeError(f"{method}: {told['error']}")
            else:
                return told["result"]

    def value(self, words: str) -> Any:
        """What an expression comes to in the page."""
        told = self.call("Runtime.evaluate", expression=words, returnByValue=True, awaitPromise=True)
        if "exceptionDetails" in told:
            raise RuntimeError(f"{words}: {told['exceptionDetails']}")
        return told["result"].get("value")

    def processor(self) -> float:
        """The processor seconds that the page's process has taken."""
        metrics = self.call("Performance.getMetrics")["metrics"]
        return next(one["value"] for one in metrics if one["name"] == "ProcessTime")

    def soon(self, words: str) -> Any:
        """What an expression comes to once that is true."""
        end = time.monotonic() + PATIENCE
        while time.monotonic() < end:
            try:
                found = self.value(words)
            except RuntimeError:  # a page that is on its way
                found = None
            if found:
                return found
            time.sleep(0.05)
        raise TimeoutError(words)

    def look(self, width: int, height: int, dark: bool = False, mobile: bool = False, scale: float = 1) -> None:
        """The size of the window, and what its user likes."""
        self.call("Emulation.setDeviceMetricsOverride", width=width, height=height, deviceScaleFactor=scale, mobile=mobile)
        scheme = {"name": "prefers-color-scheme", "value": "dark" if dark else "light"}
        self.call("Emulation.setEmulatedMedia", features=[scheme])

    def zone(self, name: str) -> None:
        """The time zone of the browser."""
        self.call("Emulation.setTimezoneOverride", timezoneId=name)

    def open(self, file: str) -> float:
        """Opens a page, and waits until all of it is drawn: the milliseconds that this took."""
        self.asked.clear()
        self.errors.clear()
        self.call("Page.navigate", url=f"file://{file}")
        return float(self.soon("location.href !== 'about:blank' && document.documentElement.dataset.drawn"))

    def picture(self, file: str, height: int) -> None:
        """A picture of the page down to this height."""
        width = self.value("innerWidth")
        clip = {"x": 0, "y": 0, "width": width, "height": height, "scale": 1}
        data = self.call("Page.captureScreenshot", format="png", clip=clip, captureBeyondViewport=True)["data"]
        with open(file, "wb") as picture:
            picture.write(base64.b64decode(data))
