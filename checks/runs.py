#!/usr/bin/env python3
"""Runs of the built program whose histories are looked at: the bundled example on its machines, and 2,000
derivations on 64 slots, twenty times, and four times with a journal. Each must end without a fault, build
everything, and write a history of which `audit` says that it is legal.

    python3 checks/runs.py
"""

import os
import subprocess
import sys
import tempfile

HERE = os.path.dirname(os.path.abspath(__file__))
ROOT = os.path.dirname(HERE)
PROGRAM = os.path.join(ROOT, "crates", "nix_dispatch", "out", "nix_dispatch")
sys.path.insert(0, os.path.join(ROOT, "bench"))
sys.dont_write_bytecode = True
import bench  # noqa: E402


def program(words, bundle):
    with open(bundle, "rb") as stdin:
        return subprocess.run([PROGRAM, *words], stdin=stdin, capture_output=True, check=False)


def look_at(name, park, bundle, size, folder, more=()):
    """One run over the bundle, with these words more, and the audit of its history: how many entries that has."""
    ended = program(["run", *park, *more], bundle)
    if ended.returncode or ended.stderr:
        sys.exit(f"{name}: status {ended.returncode}, {ended.stderr.decode()}")
    built = sum(line.startswith(b"built ") for line in ended.stdout.splitlines())
    if built != size:
        sys.exit(f"{name}: {built} of {size} built")
    history = os.path.join(folder, "history")
    with open(history, "wb") as out:
        out.write(ended.stdout)
    verdict = program(["audit", *park, "--history", history], bundle).stdout.decode().strip()
    entries = len(ended.stdout.splitlines()) - 1
    if verdict != f"legal {entries}":
        sys.exit(f"{name}: {verdict}")
    return entries


def main():
    with tempfile.TemporaryDirectory() as folder:
        farm = os.path.join(ROOT, "examples", "farm")
        # the local machine makes the disk image that no builder can
        park = ["--builders", f"@{farm}/builders", "--extra", "aarch64-linux", "--features", "kvm,nixos-test"]
        entries = look_at("farm", park, f"{farm}/bundle", 21, folder)
        print(f"farm: 21 of 21 built, a legal history of {entries} entries")
        bundle = os.path.join(folder, "bundle")
        with open(bundle, "w", encoding="ascii") as out:
            out.write(bench.plain(2_000))
        park = ["--builders", "m - - 64", "--jobs", "0"]
        name = "2,000 on 64 slots"
        for _ in range(20):
            look_at(name, park, bundle, 2_000, folder)
        for number in range(4):
            journal = os.path.join(folder, f"journal-{number}")
            look_at(f"{name}, with a journal", park, bundle, 2_000, folder, ["--journal", journal])
        print("2,000 derivations on 64 slots: 20 runs, and 4 with a journal, each built all and wrote a legal history")


if __name__ == "__main__":
    main()
