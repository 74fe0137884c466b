#!/usr/bin/env python3
"""What real-park.sh looks at: the history of a run, the logs of its agents and the stores of its machines.

    look.py FOLDER RAN MACHINE ..      checks 1 to 5 of the run RAN; the machines are stores in FOLDER
    look.py FOLDER RAN outputs         the outputs that the run built
    look.py FOLDER same DUMP DUMP      whether two dumps register the same paths alike
    look.py FOLDER agent LOG           the process that builds for the slot of this log
"""

import glob
import os
import re
import subprocess
import sys

OUTPUT = re.compile(r'\("([^"]*)","([^"]*)","[^"]*","[^"]*"\)')


def fail(text):
    sys.exit(f"real-park: {text}")


def read(*names):
    with open(os.path.join(*names), encoding="utf-8") as text:
        return text.read().splitlines()


class Run:
    """The bundle, the history and the logs of a run."""

    def __init__(self, folder, name):
        self.folder = os.path.join(folder, name)
        lines = [line.split(" ", 1) for line in read(self.folder, "bundle")]
        self.paths = [path for path, _ in lines]
        self.outputs = [[path for _, path in OUTPUT.findall(text[: text.index("],") + 1])] for _, text in lines]
        self.history = [line.split() for line in read(self.folder, "history")][1:]
        self.park = [line.split() for line in read(self.folder, "park")]
        self.logs = {}
        for place in self.park:
            log = read(self.folder, f"{place[0]}.{place[1]}.log")
            words = [line.split() for line in log if re.match(r"\d+ (begin|end|valid) ", line)]
            self.logs[int(place[0]), int(place[1])] = words

    def built(self):
        return [int(entry[1]) for entry in self.history if entry[0] == "built"]

    def held(self):
        """What each machine holds after the history: what was copied to it, and what was built on it."""
        held, machine = {}, {}
        for entry in self.history:
            if entry[0] == "chosen":
                machine[int(entry[1])] = int(entry[2])
            elif entry[0] == "started":
                held.setdefault(machine[int(entry[1])], set()).update(entry[2:])
            elif entry[0] == "built":
                held.setdefault(machine[int(entry[1])], set()).update(self.outputs[int(entry[1])])
        return held


def valid_paths(store):
    """The valid paths of a store, by the database that Nix keeps of it."""
    dump = subprocess.run(
        ["nix", "--extra-experimental-features", "nix-command", "path-info", "--all", "--store", store],
        capture_output=True, check=True, text=True,
    )
    return set(dump.stdout.split())


def look_at(folder, name, machines):
    run = Run(folder, name)
    built = run.built()
    outputs = {path for drv in built for path in run.outputs[drv]}
    every = {path for paths in run.outputs for path in paths}

    valid = valid_paths(os.path.join(folder, "local"))
    if valid & every != outputs:
        fail(f"valid and not built, or the other way round: {sorted((valid & every) ^ outputs)}")
    print(f"1: the {len(outputs)} outputs of the {len(built)} derivations built are valid, and no other of the graph's")

    begun = [words[2] for log in run.logs.values() for words in log if words[1] == "begin"]
    if len(begun) != len(set(begun)):
        fail("a derivation was realised twice")
    if not {run.paths[drv] for drv in built} <= set(begun):
        fail("a derivation counts as built and was not realised")
    print(f"2: {len(begun)} derivations were realised, each once")

    verdict = read(run.folder, "verdict")
    if verdict != [f"legal {len(run.history)}"]:
        fail(f"the verdict is {verdict}")
    print(f"3: the history of {len(run.history)} entries is legal")

    held = run.held()
    for number, machine in enumerate(machines, 1):
        there = valid_paths(os.path.join(folder, machine))
        if there != held.get(number, set()):
            fail(f"{machine} has and does not hold, or the other way round: {sorted(there ^ held.get(number, set()))}")
    print(f"4: the stores of {len(machines)} machines have the {sum(len(held.get(n, ())) for n in range(1, len(machines) + 1))} paths that they hold, and no other")

    most = {}
    for machine in {place[0] for place in run.park}:
        jobs = sum(place[0] == machine for place in run.park)
        times = []
        for (number, _), log in run.logs.items():
            if number == int(machine):
                times += [(int(words[0]), 1 if words[1] == "begin" else -1) for words in log if words[1] != "valid"]
        now = top = 0
        for _, step in sorted(times):
            now += step
            top = max(top, now)
        if top > jobs:
            fail(f"{top} builds at once on machine {machine}, which has {jobs} jobs")
        most[machine] = f"{top} of {jobs}"
    print("5: the most builds at once on each machine: " + ", ".join(most[machine] for machine in sorted(most, key=int)))


def registered(dump):
    """Of each path its NAR hash and references, by a dump of the database."""
    lines, paths = iter(read(dump)), {}
    for path in lines:
        digest, size, _deriver, count = (next(lines) for _ in range(4))
        paths[path] = (digest, size, sorted(next(lines) for _ in range(int(count))))
    return paths


def agent_of(log):
    """The process by which Nix builds for the slot whose log this is: what it says itself is in a file named by the slot."""
    place = os.path.basename(log)[: -len(".log")]
    said = os.path.join(os.path.realpath(os.path.join(os.path.dirname(log), ".agents")), f"{place}.said")
    for link in glob.glob("/proc/[0-9]*/fd/2"):
        try:
            if os.readlink(link) == said:
                return link.split("/")[2]
        except OSError:
            continue
    return ""


def main():
    folder, name, *words = sys.argv[1:]
    if name == "same":
        first, second = (registered(os.path.join(folder, dump)) for dump in words)
        if first != second or not first:
            fail(f"registered otherwise: {[path for path in first if first[path] != second.get(path)]}")
    elif name == "agent":
        print(agent_of(words[0]))
    elif words == ["outputs"]:
        run = Run(folder, name)
        broken = [path for drv in run.built() for path in run.outputs[drv]]
        print("\n".join(broken))
    else:
        look_at(folder, name, words)


if __name__ == "__main__":
    main()
