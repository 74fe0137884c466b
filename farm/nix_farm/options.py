"""The command line of farm/build."""

import os
import re
from dataclasses import dataclass, field
from typing import Callable, Dict, List, Sequence, Set, Tuple

from .errors import GivenUp, Usage

_NUMBER = re.compile("0|[1-9][0-9]*", re.ASCII)
_NAME = re.compile("[a-z0-9-]+", re.ASCII)
_VALUE = re.compile("[A-Za-z0-9:./@_+=-]+", re.ASCII)


@dataclass
class Options:
    """The words of a command line. `told` has the names of those of this machine's settings that it says."""

    out: str = ""
    roots: List[str] = field(default_factory=list)
    builders: str = ""
    system: str = ""
    extra: str = ""
    features: str = ""
    jobs: str = ""
    keep_going: bool = False
    explain: bool = False
    check_paths: bool = False
    retries: int = 2
    substitute: bool = False
    # seconds
    connect_timeout: int = 10
    copy_timeout: int = 300
    reconnect: int = 300
    shared_slots: bool = False
    timeout: str = ""
    silent: str = ""
    cores: str = ""
    keep_failed: bool = False
    others: Dict[str, str] = field(default_factory=dict)
    link: bool = True
    told: Set[str] = field(default_factory=set)

    def of_nix(self) -> List[str]:
        """The words for a command of Nix that builds or fetches."""
        words: List[str] = []
        for name, value in (("--timeout", self.timeout), ("--max-silent-time", self.silent), ("--cores", self.cores)):
            words += [name, value] if value else []
        words += ["--keep-failed"] if self.keep_failed else []
        for name, value in self.others.items():
            words += ["--option", name, value]
        return words


def _told(name: str) -> Callable[[Options, str], None]:
    def take(options: Options, value: str) -> None:
        setattr(options, name, value)
        options.told.add(name)

    return take


def _number(name: str) -> Callable[[Options, str], None]:
    def take(options: Options, value: str) -> None:
        if not _NUMBER.fullmatch(value):
            raise Usage
        if name == "jobs":
            _told(name)(options, value)
        else:
            setattr(options, name, int(value) if isinstance(getattr(options, name), int) else value)

    return take


def _flag(name: str, value: bool = True) -> Callable[[Options], None]:
    return lambda options: setattr(options, name, value)


def _out(options: Options, value: str) -> None:
    options.out = value


_WITH_VALUE: Dict[str, Callable[[Options, str], None]] = {
    "-o": _out,
    "--builders": _told("builders"),
    "--system": _told("system"),
    "--extra": _told("extra"),
    "--features": _told("features"),
    "--jobs": _number("jobs"),
    "-j": _number("jobs"),
    "--max-jobs": _number("jobs"),
    "--retries": _number("retries"),
    "--connect-timeout": _number("connect_timeout"),
    "--copy-timeout": _number("copy_timeout"),
    "--reconnect": _number("reconnect"),
    "--timeout": _number("timeout"),
    "--max-silent-time": _number("silent"),
    "--cores": _number("cores"),
}

_ALONE: Dict[str, Callable[[Options], None]] = {
    "--keep-going": _flag("keep_going"),
    "-k": _flag("keep_going"),
    "--explain": _flag("explain"),
    "--check-paths": _flag("check_paths"),
    "--keep-failed": _flag("keep_failed"),
    "-K": _flag("keep_failed"),
    "--substitute": _flag("substitute"),
    "--shared-slots": _flag("shared_slots"),
    "--no-link": _flag("link", False),
    "--no-out-link": _flag("link", False),
}


def known() -> Set[str]:
    """The options that are understood, by all their names."""
    return {*_WITH_VALUE, *_ALONE, "--option"}


def _option(options: Options, name: str, value: str) -> None:
    """`--option NAME VALUE`."""
    if name == "substitute" and value in ("true", "false"):
        options.substitute = value == "true"
        if value == "false":
            options.told.add("substitute")
    elif _NAME.fullmatch(name) and _VALUE.fullmatch(value):
        options.others[name] = value
    else:
        wanted = "a name and one word of letters, digits and :./@_+=-"
        raise GivenUp(2, f"--option takes {wanted}, and not '{name}' and '{value}'")


def _root(word: str) -> str:
    """The derivation that a word names: a link, as nix-instantiate --add-root prints it, stands for what it leads to."""
    if not word.endswith(".drv"):
        raise GivenUp(2, f"{word} is no derivation: its path ends in .drv, as nix-instantiate prints it")
    for _ in range(40):
        if not os.path.islink(word):
            break
        word = os.path.join(os.path.dirname(word), os.readlink(word))
    return word


def parse(words: Sequence[str]) -> Options:
    """Usage where they aren't understood, and GivenUp where that can be said better."""
    options = Options()
    left: List[str] = list(words)
    while left:
        word = left.pop(0)
        if word in _WITH_VALUE:
            (value,) = _take(left, 1)
            _WITH_VALUE[word](options, value)
        elif word == "--option":
            _option(options, *_take(left, 2))
        elif word in _ALONE:
            _ALONE[word](options)
        elif word.startswith("-"):
            raise Usage
        else:
            root = _root(word)
            options.roots += [] if root in options.roots else [root]
    if not options.roots:
        raise Usage
    return options


def _take(left: List[str], count: int) -> Tuple[str, ...]:
    if len(left) < count:
        raise Usage
    taken = tuple(left[:count])
    del left[:count]
    return taken
