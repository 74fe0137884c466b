"""What a round's journal says by now of each slot: the derivation that it was chosen for last."""

from typing import Dict, List, Sequence

from .park import Place


class Chosen:
    """Reads the journal as it grows. An agent is asked for a copy once it is durable there what that is for."""

    def __init__(self, journal: str, drvs: Sequence[str]) -> None:
        """`drvs` are the paths of the round's bundle in its order."""
        self._journal = journal
        self._drvs = drvs
        self._read = 0
        self._of: Dict[str, str] = {}

    def of(self, place: Place) -> str:
        """The path of the derivation that a slot was chosen for last; `-` where that can't be said."""
        for words in self._new_entries():
            if words[0] == "chosen" and len(words) == 4 and words[1].isdigit() and int(words[1]) < len(self._drvs):
                self._of[f"{words[2]}.{words[3]}"] = self._drvs[int(words[1])]
        return self._of.get(str(place), "-")

    def _new_entries(self) -> List[List[str]]:
        try:
            with open(self._journal, "rb") as journal:
                journal.seek(self._read)
                text = journal.read()
        except OSError:
            return []
        whole = text[: text.rfind(b"\n") + 1]
        self._read += len(whole)
        return [line.split(" ") for line in whole.decode(errors="surrogateescape").split("\n")[:-1]]
