"""Why no machine of the park may ever build a derivation."""

import re
from dataclasses import dataclass
from typing import Dict, Iterable, List, Sequence

from .derivation import Derivation
from .options import Options


@dataclass
class Ability:
    """What a machine builds: its systems, the features that it has, and those that a build on it has to require."""

    systems: List[str]
    supported: List[str]
    mandatory: List[str]


def _listed(value: str) -> List[str]:
    return [word for word in value.split(",") if word]


def abilities(options: Options, builders: str) -> List[Ability]:
    """What the machines build: this one, and those of the builders list's entries, a line or a semicolon apart."""
    found = []
    if int(options.jobs) > 0 if options.jobs.isdigit() else True:
        found.append(Ability([options.system, *_listed(options.extra)], _listed(options.features), []))
    for line in re.split("[;\n]", builders):
        words = line.partition("#")[0].split()
        if not words or (len(words) > 3 and words[3] == "0"):
            continue
        words += ["-"] * (7 - len(words))
        systems = options.system if words[1] == "-" else words[1]
        supported, mandatory = ("" if word == "-" else word for word in (words[5], words[6]))
        found.append(Ability(_listed(systems), _listed(supported), _listed(mandatory)))
    return found


def _lacking(wanted: Iterable[str], other: Sequence[str]) -> List[str]:
    return [word for word in wanted if word and word not in other]


def why_none(drv: Derivation, machines: Sequence[Ability]) -> str:
    """Why no machine may build a derivation; empty where one may."""
    platform, wanted = drv.platform, drv.features
    with_system = [one for one in machines if platform in ("builtin", *one.systems)]
    if not with_system:
        return f"no machine has the system {platform}"
    unwanted: List[str] = []
    had = set()
    for machine in with_system:
        features = machine.supported + machine.mandatory
        had.update(features)
        lacks = _lacking(wanted, features)
        more = _lacking(machine.mandatory, wanted)
        if not lacks and not more:
            return ""
        if not lacks:
            unwanted = more
    never = _lacking(wanted, list(had))
    if never:
        return f"no machine with the system {platform} has the feature {','.join(never)}"
    if unwanted:
        what = f"each machine with the system {platform} and its features"
        return f"{what} is for builds alone that require {','.join(unwanted)}"
    return f"no machine with the system {platform} has all of the features {','.join(wanted)}"


def reasons(drvs: Iterable[Derivation], machines: Sequence[Ability]) -> Dict[str, str]:
    """Of those derivations that no machine may build, by their paths, why."""
    found = ((drv.path, why_none(drv, machines)) for drv in drvs)
    return {path: why for path, why in found if why}
