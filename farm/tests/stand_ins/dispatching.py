"""What the stand-in of `nix-dispatch` does: bundles, parks and histories, and runs of them by agents."""

import os
import sys
import threading
import time

from stand_in import option, say

KINDS = ("chosen", "started", "built", "failed", "down", "nobuilder", "stop")
HEAD = "nix-dispatch-history 2"


class Bundle:
    """The derivations of a bundle, by their numbers."""

    def __init__(self, file):
        with open(file, encoding="latin-1") as text:
            lines = [line.rstrip("\n").split(" ", 1) for line in text]
        self.paths = [path for path, _ in lines]
        number = {path: at for at, path in enumerate(self.paths)}
        self.inputs, self.outputs, self.needs, self.sources = [], [], [], []
        for _, text in lines:
            outputs, inputs, sources, system, _, _, env = eval(text, {"Derive": lambda *parts: parts})
            self.outputs.append([output[1] for output in outputs])
            self.inputs.append([number[path] for path, _ in inputs])
            self.sources.append(sources)
            self.needs.append((system, dict(env).get("requiredSystemFeatures", "").split()))


class Park:
    """The machines that the words of the command line tell, of which the first is this one."""

    def __init__(self, words):
        self.local = [option(words, "--system", "x86_64-linux"), *option(words, "--extra", "").split(",")]
        self.features = option(words, "--features", "").split(",")
        self.jobs = int(option(words, "--jobs", "1"))
        told = option(words, "--builders", "")
        if told.startswith("@"):
            with open(told[1:], encoding="latin-1") as text:
                told = text.read()
        fields = [entry.split() for line in told.split("\n") for entry in line.partition("#")[0].split(";")]
        self.entries = [(line + ["-"] * 8)[:8] for line in fields if line]

    def machines(self):
        """The URI, the jobs, the key and the host key of each."""
        yield "local", self.jobs, "-", "-"
        for uri, _, key, jobs, _, _, _, host_key in self.entries:
            yield (uri if "/" in uri else "ssh://" + uri), (1 if jobs == "-" else int(jobs)), key, host_key

    def may_build(self, machine, needs):
        system, features = needs
        if machine == 0:
            return self.jobs > 0 and system in self.local and set(features) <= set(self.features)
        entry = self.entries[machine - 1]
        if entry[3] == "0":
            return False
        has, must = ([] if entry[at] == "-" else entry[at].split(",") for at in (5, 6))
        return system in entry[1].split(",") and set(features) <= {*has, *must} and set(must) <= set(features)

    def speed(self, machine):
        field = "-" if machine == 0 else self.entries[machine - 1][4]
        return 1.0 if field == "-" else float(field)


def history_of(file):
    """The entries of a history's or a journal's whole lines; a line that is none is refused."""
    with open(file, encoding="latin-1") as text:
        lines = text.read().split("\n")[:-1]
    for number, line in enumerate(lines):
        if (line != HEAD) if number == 0 else (line.split(" ")[0] not in KINDS):
            say(f"nix-dispatch: journal: BadLine {number + 1}\n")
            raise SystemExit(3)
    return [line.split(" ") for line in lines[1:]]


class Standing:
    """How the derivations stand after the entries of a history."""

    def __init__(self, bundle):
        self.status = ["waiting"] * len(bundle.paths)
        self.place = [None] * len(bundle.paths)
        self.started = set()
        self.down, self.lost, self.is_failed, self.is_stopped = set(), set(), False, False

    def take(self, entry):
        if entry[0] == "stop":
            self.is_stopped = True
            return
        drv = int(entry[1])
        if entry[0] == "chosen":
            self.status[drv], self.place[drv] = "leased", (int(entry[2]), int(entry[3]))
        elif entry[0] == "started":
            self.started.add(drv)
        elif entry[0] == "down":
            self.down.add(self.place[drv][0])
            self.status[drv], self.place[drv] = "waiting", None
        elif entry[0] == "built":
            self.status[drv] = "built"
        else:
            self.status[drv], self.is_failed = "failed", True

    def cancel(self, bundle, keep_going):
        """Cancels what depends on a failure, and without `--keep-going` all that waits."""
        for drv, status in enumerate(self.status):
            barred = any(self.status[one] in ("failed", "cancelled") for one in bundle.inputs[drv])
            if status == "waiting" and (barred or (self.is_failed and not keep_going)):
                self.status[drv] = "cancelled"


def report_of(bundle, park, entries):
    standing = Standing(bundle)
    for entry in entries:
        standing.take(entry)
    counts = [
        f"{kind} {standing.status.count(kind)}\n" for kind in ("waiting", "leased", "built", "failed", "cancelled")
    ]
    machines = [f"machine {at} up 0/{jobs} {uri}\n" for at, (uri, jobs, _, _) in enumerate(park.machines())]
    drvs = [f"drv {at} {status} {bundle.paths[at]}\n" for at, status in enumerate(standing.status)]
    return "".join([f"total {len(bundle.paths)}\n", *counts, *machines, *drvs])


class Agent:
    """The two files of a slot's agent."""

    def __init__(self, folder, place):
        name = f"{folder}/{place[0]}.{place[1]}"
        self.calls = open(name + ".calls", "w", encoding="latin-1")
        self.answers = open(name + ".answers", encoding="latin-1")
        self.is_gone = False

    def ask(self, *words):
        """The words of the answer; none where the agent is gone."""
        if self.is_gone:
            return []
        try:
            self.calls.write(" ".join(words) + "\n")
            self.calls.flush()
            answer = self.answers.readline()
        except OSError:
            answer = ""
        self.is_gone = not answer.endswith("\n")
        return answer.split()


class Run:
    """A run of a bundle by agents, a thread for each lease."""

    def __init__(self, bundle, park, words, told):
        self.bundle, self.park, self.told = bundle, park, told
        self.keep_going = "--keep-going" in words
        self.file = option(words, "--journal")
        entries = history_of(self.file) if "--resume" in words else []
        self.standing, self.held, self.entries = Standing(bundle), {}, entries
        for entry in entries:
            self.standing.take(entry)
            if entry[0] == "started":
                self.hold(int(entry[1]), entry[2:])
        self.journal = open(self.file, "r+" if entries else "w", encoding="latin-1")
        self.journal.seek(0, os.SEEK_END)
        if not entries:
            self.write(HEAD)
        self.added, self.changed, self.fault = 0, threading.Condition(), False
        folder = option(words, "--agents")
        self.agents = {(at, slot): None for at, (_, jobs, _, _) in enumerate(park.machines()) for slot in range(jobs)}
        for place in sorted(self.agents):
            self.agents[place] = Agent(folder, place)
        self.taken = set()
        with open(option(words, "--info"), encoding="latin-1") as text:
            self.info = {line.split()[0]: line.split()[1:] for line in text}

    def write(self, line):
        self.journal.write(line + "\n")
        self.journal.flush()

    def add(self, *words):
        """An entry of the history; the changed condition is held."""
        if self.fault:
            return
        entry = [str(word) for word in words]
        self.write(" ".join(entry))
        self.entries.append(entry)
        self.standing.take(entry)
        self.added += 1
        if self.added == self.told.get("kills", [0])[0]:
            os.kill(os.getpid(), self.told["kills"][1])
            while True:
                time.sleep(1)
        if self.added == self.told.get("faults"):
            self.write("stop")
            self.fault = True

    def hold(self, drv, paths):
        machine = self.standing.place[drv][0]
        self.held.setdefault(machine, set()).update(paths)

    def run(self):
        with self.changed:
            for drv, status in enumerate(self.standing.status):
                if status == "leased":
                    self.begin(drv, self.standing.place[drv])
            while not self.fault:
                while not self.fault and self.choose():
                    pass
                if not self.taken:
                    break
                self.changed.wait()
        if self.fault:
            say("nix-dispatch: worker 0\n")
            return 5
        self.standing.cancel(self.bundle, self.keep_going)
        sys.stdout.write("".join(" ".join(entry) + "\n" for entry in self.entries))
        return 0 if all(status == "built" for status in self.standing.status) else 1

    def choose(self):
        """Leases the first derivation that may be; whether there was one."""
        self.standing.cancel(self.bundle, self.keep_going)
        for drv, status in enumerate(self.standing.status):
            if status != "waiting" or any(self.standing.status[one] != "built" for one in self.bundle.inputs[drv]):
                continue
            able = [at for at, _ in enumerate(self.park.machines()) if self.park.may_build(at, self.bundle.needs[drv])]
            able = [at for at in able if at not in self.standing.down]
            if not able:
                self.add("nobuilder", drv)
                return True
            free = [place for place in sorted(self.agents) if place[0] in able and place not in self.taken]
            if free:
                place = min(free, key=lambda one: (self.load(one[0]), -self.park.speed(one[0]), one))
                self.add("chosen", drv, *place)
                self.begin(drv, place)
                return True
        return False

    def load(self, machine):
        return sum(one[0] == machine for one in self.taken) / self.park.speed(machine)

    def begin(self, drv, place):
        self.taken.add(place)
        threading.Thread(target=self.lease, args=(drv, place), daemon=True).start()

    def lease(self, drv, place):
        agent = self.agents[place]
        connected = agent.ask("connect") == ["yes"]
        with self.changed:
            held = self.held.get(place[0], set())
            lacking = [] if place[0] == 0 else sorted(self.closure(drv) - held)
        copied = connected and agent.ask("copy", *lacking) == ["yes"]
        with self.changed:
            is_begun = drv in self.standing.started
            if copied and not is_begun:
                self.add("started", drv, *lacking)
            if copied:
                self.hold(drv, lacking + self.bundle.outputs[drv])
        answer = agent.ask("build", self.bundle.paths[drv], *self.bundle.outputs[drv]) if copied else []
        with self.changed:
            if not copied and not is_begun:
                self.add("down", drv)
            elif answer[:1] == ["built"]:
                self.add("built", drv, *answer[1:])
            elif answer[:1] == ["failed"]:
                self.add("failed", drv, "status", answer[1])
            else:
                self.add("failed", drv, "lost")
            self.taken.discard(place)
            self.changed.notify_all()

    def closure(self, drv):
        """The input closure of a derivation, as far as its bundle and info text say it."""
        found, left = set(), list(self.bundle.sources[drv])
        for one in self.bundle.inputs[drv]:
            left += self.bundle.outputs[one]
        while left:
            path = left.pop()
            if path not in found:
                found.add(path)
                left += self.info.get(path, [])
        return found
