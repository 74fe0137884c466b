"""What Nix's settings say of this machine, and the builders list."""

import os
import re
from typing import Dict, List, Mapping, Tuple

from . import daemon
from .errors import GivenUp
from .options import Options

# The command of Nix that other words stand behind.
NIX = ("nix", "--extra-experimental-features", "nix-command")


def read_settings(shown: str) -> Dict[str, str]:
    """The settings that `nix show-config` has printed, the first of each name."""
    found: Dict[str, str] = {}
    for line in shown.split("\n"):
        name, is_one, value = line.partition(" = ")
        if is_one:
            found.setdefault(name, value)
    return found


def untold(options: Options) -> List[str]:
    """The options by which the command line could say what it leaves to Nix's settings."""
    return [f"--{name}" for name in ("builders", "system", "extra", "features", "jobs") if name not in options.told]


def _with_commas(value: str) -> str:
    return re.sub(" +", ",", value)


def complete(options: Options, settings: Mapping[str, str]) -> None:
    """Says what the command line doesn't say of this machine; GivenUp where the builders list can't be read."""
    if "system" not in options.told:
        options.system = settings.get("system", "")
    if "extra" not in options.told:
        options.extra = _with_commas(settings.get("extra-platforms", ""))
    if "features" not in options.told:
        options.features = _with_commas(settings.get("system-features", ""))
    if "jobs" not in options.told:
        options.jobs = settings.get("max-jobs", "")
    options.system = options.system or "x86_64-linux"
    options.jobs = options.jobs or "1"
    if "builders" not in options.told:
        options.builders = settings.get("builders", "")
        if options.builders.startswith("@") and not os.access(options.builders[1:], os.R_OK):
            options.builders = ""
    if options.builders.startswith("@") and not os.access(options.builders[1:], os.R_OK):
        raise GivenUp(3, f"the builders list {options.builders[1:]} can't be read")


def builders_list(options: Options) -> str:
    """The text of the builders list; GivenUp where it can't be read."""
    if not options.builders.startswith("@"):
        return options.builders + "\n"
    try:
        with open(options.builders[1:], encoding="utf-8", errors="surrogateescape") as text:
            return text.read()
    except OSError as error:
        raise GivenUp(3, f"the builders list {options.builders[1:]} can't be read") from error


def of_program(options: Options) -> List[str]:
    """The words that nix-dispatch is given of the park and of the run."""
    words = ["--explain"] if options.explain else []
    words += ["--keep-going"] if options.keep_going else []
    words += ["--builders", options.builders, "--system", options.system, "--extra", options.extra]
    return words + ["--features", options.features, "--jobs", options.jobs]


def told_of_text(text: str) -> Dict[str, List[str]]:
    """What a text of `.unfinished` says, by its lines' first words."""
    told: Dict[str, List[str]] = {}
    for line in text.split("\n")[:-1]:
        name, _, value = line.partition(" ")
        told.setdefault(name, []).append(value)
    return told


def words_of_text(text: str) -> List[str]:
    """The words that nix-dispatch was given of the park and of the run with this text of `.unfinished`."""
    told = told_of_text(text)
    words = ["--keep-going"] if told.get("keep-going") == ["1"] else []
    words += ["--builders", "\n".join(told.get("builders", []))]
    for name in ("system", "extra", "features", "jobs"):
        words += [f"--{name}", told.get(name, [""])[0]]
    return words


def run_words(options: Options, builders: str) -> str:
    """What is built and on what, as far as a history goes by it: the text of `.unfinished`."""
    lines = [
        f"store {os.environ.get('NIX_REMOTE', '')}",
        f"system {options.system}",
        f"extra {options.extra}",
        f"features {options.features}",
        f"jobs {options.jobs}",
        f"keep-going {int(options.keep_going)}",
        *(f"root {root}" for root in options.roots),
        *(f"builders {line}" for line in (builders[:-1] if builders.endswith("\n") else builders).split("\n")),
    ]
    return "\n".join(lines) + "\n"


def _count(value: str) -> int:
    return int(value) if value.isascii() and value.isdigit() else 0


def bounds_of_builds(options: Options, settings: Mapping[str, str]) -> Tuple[int, int]:
    """The seconds that Nix gives a build, and those that it may be silent; 0 for no bound."""
    timeout = options.others.get("timeout", settings.get("timeout", ""))
    silent = options.others.get("max-silent-time", settings.get("max-silent-time", ""))
    return _count(options.timeout or timeout), _count(options.silent or silent)


def of_builds(options: Options, settings: Mapping[str, str], jobs: int, builders: str) -> daemon.Settings:
    """What a build goes by: so many jobs here, or those of a builders list."""
    others = dict(options.others)
    if options.timeout:
        others["timeout"] = options.timeout
    others["builders"] = builders
    return daemon.Settings(
        keep_failed=options.keep_failed or settings.get("keep-failed") == "true",
        fallback=settings.get("fallback") == "true",
        jobs=jobs,
        silent=_count(options.silent or settings.get("max-silent-time", "")),
        cores=_count(options.cores or settings.get("cores", "")),
        others=others,
    )


def store_folder() -> str:
    """The folder below which the paths of this machine's store lie: empty for the usual one."""
    remote = os.environ.get("NIX_REMOTE", "")
    return remote if remote.startswith("/") else ""
