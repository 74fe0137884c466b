#!/usr/bin/env python3
"""Says where the check of a crate spent its time, function by function.

    (cd crates/NAME && rm -rf out/incremental && rt check --jobs 1)
    bench/proving.py NAME [COUNT]

A check keeps a file for each part that it has checked in `out/incremental`, in the order of its work. So with one
job the time between two files is what the later one took. Each row has the seconds of a function, and of its three
slowest parts: `Lts` follows the function's steps, and grows with what has to be let go at its exits; `Proof` and `Tie`
are the search for its goals; `Layout`, `Reads` and `Code` are the rest. The first function of a library that is
loaded has the loading too. With more jobs the parts overlap, and a row says little.
"""

import collections
import os
import re
import sys

HERE = os.path.dirname(os.path.abspath(__file__))
PART = re.compile(r"^(.*?)\.(Lts[-\w]*|[A-Z][\w-]*(?:\.Mir)?)$")


def kept(folder):
    """The files of a folder and of those below it, by time."""
    found = []
    for at, _, names in os.walk(folder):
        for name in names:
            if name.endswith(".oantt"):
                found.append((os.stat(os.path.join(at, name)).st_mtime, name))
    return sorted(found)


def function_and_part(name):
    """The function that a kept file is about, and which part of its check."""
    name = re.sub(r"(\.decls)?\.oantt$", "", name)
    name = re.sub(r"^Rattle-\w+?-(proofs|specs)\.", "", name)
    parts = PART.match(name)
    return parts.groups() if parts else (name, "")


def main():
    if len(sys.argv) not in (2, 3):
        sys.exit(__doc__)
    crate, count = sys.argv[1], int(sys.argv[2]) if len(sys.argv) == 3 else 20
    files = kept(os.path.join(HERE, "..", "crates", crate, "out", "incremental"))
    if not files:
        sys.exit(f"proving: crates/{crate}/out/incremental has no checked parts: rt check --jobs 1 there first")
    seconds = collections.defaultdict(collections.Counter)
    for (before, _), (after, name) in zip(files, files[1:]):
        function, part = function_and_part(name)
        seconds[function][part] += after - before
    print(f"{files[-1][0] - files[0][0]:8.1f} s in all")
    by_time = sorted(seconds.items(), key=lambda it: -sum(it[1].values()))
    for function, parts in by_time[:count]:
        slowest = ", ".join(f"{part or 'other'} {took:.1f}" for part, took in parts.most_common(3))
        print(f"{sum(parts.values()):8.1f} s {function} ({slowest})")


main()
