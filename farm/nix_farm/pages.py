"""Puts the page of a run into its folder again and again, while the run goes on."""

import asyncio
import time
import traceback
from typing import Callable, Optional

from .account import Account
from .folder import say, write_error
from .page import Stand

# The seconds between two pages at least, and how many times over they are what making one takes.
_BEAT = 5.0
_TIMES = 50


class Pages:
    """The page of a run. That one can't be made or written is no fault of the run.

    account     what it is made of; there is no page before
    rounds      how many rounds there are by now
    is_running  whether the last one runs now
    """

    def __init__(self, clock: Callable[[], float] = time.process_time) -> None:
        """`clock` says what of a processor's time was taken, in seconds."""
        self.account: Optional[Account] = None
        self.rounds = 0
        self.is_running = False
        self._has_ended = False
        self._clock = clock
        self._took = 0.0
        self._is_broken = False

    @property
    def every(self) -> float:
        """The seconds between two pages: the more they cost, the fewer there are."""
        return max(_BEAT, _TIMES * self._took)

    def show(self) -> None:
        """Puts the page as of now into the folder."""
        self._show(Stand(self.rounds, int(time.time() * 1000), every=self.every))

    def end(self, status: int, interrupted: str) -> None:
        """Puts the last page into the folder."""
        self._has_ended = True
        self._show(Stand(self.rounds, int(time.time() * 1000), status, interrupted))

    def leave(self, status: int, interrupted: str) -> None:
        """Puts the last page into the folder, where the run has ended without one."""
        if not self._has_ended:
            self.end(status, interrupted)

    def _show(self, stand: Stand) -> None:
        """Where a page can't be made that is said once, and there are no more."""
        if self._is_broken or self.account is None:
            return
        begun = self._clock()
        try:
            self.account.put_page(stand, self.is_running)
        except Exception:
            self._is_broken = True
            write_error(traceback.format_exc())
            say("the page of the run can't be made, so index.html isn't up to date; the run itself goes on")
        self._took = self._clock() - begun

    async def keep_shown(self) -> None:
        """Shows the page again and again, until it is called off."""
        while True:
            await asyncio.sleep(self.every)
            self.show()
