"""The parts of a derivation's text, as far as a graph goes by them."""

import re
from dataclasses import dataclass
from typing import List, Tuple

_OUTPUT = re.compile(r'\("([^"]*)","([^"]*)","[^"]*","[^"]*"\)')
_INPUT = re.compile(r'\("([^"]*)",\[([^\]]*)\]\)')
_WORD = re.compile(r'"([^"]*)"')
_FEATURES = re.compile(r'\("requiredSystemFeatures","([^"]+)"')
_STRUCTURED = re.compile(r'\\"requiredSystemFeatures\\":\[([^\]]+)\]')


@dataclass
class Derivation:
    """A derivation: its path, and its text, which is empty where only its parts are kept.

    outputs   the name and the path of each output, whose path is empty where it isn't known before
    inputs    the path of each input derivation, and the names of those of its outputs that are wanted
    sources   the paths of the sources
    platform  the system that it is built for
    features  the features that it requires of a machine
    """

    path: str
    text: str
    outputs: List[Tuple[str, str]]
    inputs: List[Tuple[str, List[str]]]
    sources: List[str]
    platform: str
    features: List[str]

    @property
    def output_paths(self) -> List[str]:
        return [path for _, path in self.outputs if path]

    def line(self) -> str:
        """Its line of a bundle."""
        return f"{self.path} {self.text}\n"

    def recut(self, inputs: List[Tuple[str, List[str]]], sources: List[str]) -> str:
        """The text with these inputs and sources in place of its own."""
        inputs_at, _, end = _places(self.text)
        written = ",".join(f'("{path}",[' + ",".join(f'"{name}"' for name in names) + "])" for path, names in inputs)
        listed = ",".join(f'"{path}"' for path in sources)
        return self.text[:inputs_at] + written + "],[" + listed + self.text[end:]


def _places(text: str) -> Tuple[int, int, int]:
    """Where in a text the inputs begin, where the sources begin, and where these end."""
    inputs_at = text.find("],[") + 3
    sources_at = text.find("],[", inputs_at) + 3
    return inputs_at, sources_at, text.find('],"', sources_at)


def _features(text: str, end: int) -> List[str]:
    """The features that a text requires behind a place."""
    found = _FEATURES.search(text, end) or _STRUCTURED.search(text, end)
    return re.sub("[ \t]+", ",", re.sub(r'[\\"]', "", found.group(1))).split(",") if found else []


def read_line(line: str, keeps_text: bool = True) -> Derivation:
    """A derivation by its line of a bundle, which has no newline. ValueError where the text isn't one."""
    path, _, text = line.partition(" ")
    inputs_at, sources_at, end = _places(text)
    if inputs_at < 3 or sources_at < 3 or end < 0:
        raise ValueError(f"{path} is no derivation")
    outputs = _OUTPUT.findall(text, 0, inputs_at)
    inputs = [(one, _WORD.findall(names)) for one, names in _INPUT.findall(text, inputs_at - 1, sources_at)]
    sources = _WORD.findall(text, sources_at, end)
    platform = text[end + 3 : text.find('"', end + 3)]
    return Derivation(path, text if keeps_text else "", outputs, inputs, sources, platform, _features(text, end))


def read_bundle(text: str, keeps_text: bool = True) -> List[Derivation]:
    """The derivations of a bundle."""
    return [read_line(line, keeps_text) for line in text.split("\n") if line]


def name_of(path: str) -> str:
    """The name of a derivation, by its path."""
    name = path.rsplit("/", 1)[-1].partition("-")[2]
    return name[: -len(".drv")] if name.endswith(".drv") else name
