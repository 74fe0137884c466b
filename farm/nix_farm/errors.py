"""The ends of a run that isn't brought to its end."""


class GivenUp(Exception):
    """A run that can't go on: the status that it ends with, and why."""

    def __init__(self, status: int, why: str) -> None:
        super().__init__(why)
        self.status = status


class Interrupted(Exception):
    """A signal came before there was anything to report."""


class Usage(Exception):
    """A command line that isn't understood."""
