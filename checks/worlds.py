#!/usr/bin/env python3
"""Random small worlds, and what the plain rules of docs/DESIGN.md make of them.

    python3 checks/worlds.py [--world N | --table]

A world is a bundle of one to eight derivations, up to four builders, an info text and a script, drawn from
the world's number. The rules here keep nothing but the history, and find everything by walks over it: they
know of no table, no queue and no kinds of needs. Looked at is that the table of digests in `nd_test_sims`
(`worlds.rt`), one for 64 worlds, is that of the rules, and that the built program simulates every eighth
world as they do: there the first line that differs is shown. `--table` prints the table, and `--world N`
shows one world with all its texts.

The drawing is written once more in that crate (`drawing.rt`), so the two are changed together, and the
table with them.
"""

import argparse
import os
import subprocess
import sys
import tempfile
from fractions import Fraction

ROOT = os.path.dirname(os.path.dirname(os.path.abspath(__file__)))
PROGRAM = os.path.join(ROOT, "crates", "nix_dispatch", "out", "nix_dispatch")

WORLDS = 2048
BLOCK = 64
COMMANDS = 48


# ---- what is drawn, as worlds.rt of nd_test_sims draws it


class Scribe:
    """Numbers from a seed, and the text that is written of them."""

    def __init__(self, world, part):
        self.state = 8 * world + part
        self.text = ""

    def below(self, limit):
        self.state = (self.state * 6364136223846793005 + 1442695040888963407) % 2**64
        return (self.state >> 33) % limit

    def pick(self, words):
        return words[self.below(len(words))]

    def put(self, *words):
        self.text += "".join(words)


def path(digit, name):
    return "/nix/store/" + 31 * "0" + str(digit) + name


def drvs_of(world):
    return 1 + world % 8


def builders_of(world):
    return (world // 8 % 9 + 1) // 2


def is_turned(world):
    """Whether each derivation stands before its inputs in the bundle."""
    return world // 5 % 2 == 1


def has_library(world, drv):
    return (world // 40 + drv) % 3 == 0


class Derivation:
    """What is drawn of a derivation."""

    def __init__(self, world, drv, scribe):
        self.path = path(drv, "-n.drv")
        owner = drv if scribe.below(8) > 0 else scribe.below(drvs_of(world))
        self.outputs = []
        if has_library(world, drv):
            self.outputs.append(("lib", path(owner, scribe.pick(["-lib", "-lib", "-lib", "-out"]))))
        self.outputs.append(("out", path(owner, "-out")))
        self.inputs = []
        for other in range(drvs_of(world)):
            may_be_input = other > drv if is_turned(world) else other < drv
            if may_be_input and scribe.below(3) == 0:
                names = scribe.pick(['"lib"', '"lib","out"', '"out"'])
                self.inputs.append((other, names if has_library(world, other) else '"out"'))
        self.sources = [path(source, "-src") for source in range(3) if scribe.below(4) == 0]
        self.system = scribe.pick(["x86_64-linux", "x86_64-linux", "x86_64-linux", "aarch64-linux", "builtin"])
        self.builder = scribe.pick(["/bin/sh", "/bin/sh", "/bin/sh", "builtin:b"])
        self.prefer_local = scribe.pick(["0", "0", "1"])
        self.features = scribe.pick(["", "", "", "", "", "", "k", "b", "b k"])

    def line(self):
        outputs = ",".join(f'("{name}","{of}","","")' for name, of in self.outputs)
        inputs = ",".join(f'("{path(other, "-n.drv")}",[{names}])' for other, names in self.inputs)
        sources = ",".join(f'"{source}"' for source in self.sources)
        return (
            f'{self.path} Derive([{outputs}],[{inputs}],[{sources}],"{self.system}","{self.builder}",[],'
            f'[("preferLocalBuild","{self.prefer_local}"),("requiredSystemFeatures","{self.features}")])\n'
        )


class Builder:
    """What is drawn of a builder."""

    def __init__(self, machine, scribe):
        self.uri = f"ssh://m{machine}"
        self.words = [
            f"m{machine}",
            scribe.pick(["-", "aarch64-linux", "x86_64-linux,aarch64-linux"]),
            "-",
            scribe.pick(["1", "2", "3", "1", "2", "0"]),
            scribe.pick(["1", "1", "2", "3", "0.5", "1.25"]),
            scribe.pick(["-", "k", "k,b"]),
            scribe.pick(["-", "-", "-", "-", "b"]),
        ]
        self.systems = ["x86_64-linux"] if self.words[1] == "-" else self.words[1].split(",")
        self.jobs = int(self.words[3])
        self.speed = Fraction(self.words[4])
        self.supported = set() if self.words[5] == "-" else set(self.words[5].split(","))
        self.mandatory = set() if self.words[6] == "-" else set(self.words[6].split(","))

    def line(self):
        return " ".join(self.words) + "\n"


def draw_reference(scribe):
    """A source, or sometimes an output."""
    scribe.put(" ", path(scribe.below(4), scribe.pick(["-src", "-src", "-out", "-lib"])))


def draw_references(scribe, limit):
    for _ in range(scribe.below(limit)):
        draw_reference(scribe)


def draw_info(scribe):
    for source in range(4):
        if scribe.below(2) == 0:
            scribe.put(path(source, scribe.pick(["-src", "-src", "-src", "-out"])))
            draw_references(scribe, 3)
            scribe.put("\n")


def draw_command(world, turn, scribe):
    """A command, about any derivation or one that comes up after its inputs."""
    walk = (COMMANDS - 1 - turn if is_turned(world) else turn) * drvs_of(world) // COMMANDS
    drv = str(walk if scribe.below(2) == 0 else scribe.below(drvs_of(world)))
    kind = scribe.below(32)
    if kind < 8:
        scribe.put("start ", drv)
    elif kind < 12:
        scribe.put("built ", drv)
    elif kind < 20:
        scribe.put("start ", drv, "\nbuilt ", drv)
    elif kind < 23:
        scribe.put("startwith ", drv)
        draw_references(scribe, 3)
    elif kind < 26:
        scribe.put("built ", drv, " o")
        draw_references(scribe, 2)
        if scribe.below(3) == 0:
            scribe.put(" o")
            draw_references(scribe, 3)
    elif kind < 28:
        scribe.put(scribe.pick(["lose ", "down ", "down "]), drv)
    elif kind < 29:
        scribe.put("fail ", drv, " 3")
    elif kind < 30:
        machine = str(scribe.below(builders_of(world) + 1))
        scribe.put(scribe.pick(["drain ", "enable ", "enable "]), machine)
    elif kind < 31 or scribe.below(8) > 0:
        scribe.put("ask ", drv)
    else:
        scribe.put("stop")
    scribe.put("\n")


class World:
    """All that is given to a simulation."""

    def __init__(self, number):
        self.number = number
        scribe = Scribe(number, 0)
        self.drvs = [Derivation(number, drv, scribe) for drv in range(drvs_of(number))]
        self.bundle = "".join(drv.line() for drv in self.drvs)
        scribe = Scribe(number, 1)
        self.builders = [Builder(place + 1, scribe) for place in range(builders_of(number))]
        self.builders_text = "".join(builder.line() for builder in self.builders)
        scribe = Scribe(number, 2)
        draw_info(scribe)
        self.info_text = scribe.text
        lines = [line.split(" ") for line in scribe.text.splitlines()]
        self.info = {words[0]: words[1:] for words in lines}
        scribe = Scribe(number, 3)
        for turn in range(COMMANDS):
            draw_command(number, turn, scribe)
        self.script = scribe.text
        scribe = Scribe(number, 4)
        self.jobs = scribe.below(3)
        self.keep_going = scribe.below(8) > 0
        self.extra = scribe.pick(["", "aarch64-linux"])
        self.local_features = scribe.pick(["", "k", "k,b"])


# ---- the plain rules


class Past:
    """What a history says, read from its first entry to its last. An entry is its words, as in a history
    text: ("chosen", drv, machine, slot), ("started", drv, paths), ("built", drv, lists) and so on."""

    def __init__(self, world, history):
        self.world = world
        self.leases = {}
        self.started = set()
        self.built = set()
        self.failed = set()
        self.down = set()
        self.is_ended = False
        self.reports = {}
        self.brought = [set() for _ in range(len(world.builders) + 1)]
        for entry in history:
            self.follow(*entry)
        self.is_stopped = self.is_ended or (bool(self.failed) and not world.keep_going)

    def follow(self, word, operand=None, *rest):
        if word == "chosen":
            self.leases[operand] = rest
            self.started.discard(operand)
        elif word == "nobuilder":
            self.failed.add(operand)
        elif word == "started":
            self.started.add(operand)
            self.brought[self.leases[operand][0]].update(rest[0])
        elif word == "down":
            self.down.add(self.leases.pop(operand)[0])
        elif word == "built":
            outputs = [of for _, of in self.world.drvs[operand].outputs]
            for output, references in zip(outputs, rest[0]):
                self.reports.setdefault(output, references)
            self.brought[self.leases.pop(operand)[0]].update(outputs)
            self.built.add(operand)
        elif word == "failed":
            del self.leases[operand]
            self.failed.add(operand)
        elif word == "stop":
            self.is_ended = True
        elif word == "drain":
            self.down.add(operand)
        elif word == "enable":
            self.down.discard(operand)

    def inputs(self, drv):
        return [other for other, _ in self.world.drvs[drv].inputs]

    def is_below_failure(self, drv):
        return any(other in self.failed or self.is_below_failure(other) for other in self.inputs(drv))

    def status(self, drv):
        if drv in self.built:
            return "built"
        if drv in self.failed:
            return "failed"
        if drv in self.leases:
            return "leased"
        if self.is_stopped or self.is_below_failure(drv):
            return "cancelled"
        return "waiting"

    def is_ready(self, drv):
        return self.status(drv) == "waiting" and all(other in self.built for other in self.inputs(drv))

    # -- machines: 0 is the local one

    def jobs(self, machine):
        return self.world.builders[machine - 1].jobs if machine > 0 else self.world.jobs

    def load(self, machine):
        return sum(1 for on, _ in self.leases.values() if on == machine)

    def least_slot(self, machine):
        taken = {slot for on, slot in self.leases.values() if on == machine}
        return min(slot for slot in range(self.jobs(machine)) if slot not in taken)

    def is_local(self, drv):
        """Whether the local machine may build it, and is up."""
        need = self.world.drvs[drv]
        is_system = (
            need.system in ("x86_64-linux", self.world.extra) or need.builder.startswith("builtin:")
        )
        features = set(need.features.split()) <= set(self.world.local_features.split(","))
        return is_system and features and self.world.jobs > 0 and 0 not in self.down

    def is_local_free(self, drv):
        return self.is_local(drv) and self.load(0) < self.world.jobs

    def is_eligible(self, drv, builder):
        need = self.world.drvs[drv]
        required = set(need.features.split())
        return (
            builder.jobs > 0
            and (need.system in builder.systems or need.system == "builtin")
            and required <= builder.supported | builder.mandatory
            and builder.mandatory <= required
        )

    def reply(self, drv):
        """A machine, or a word."""
        machines = list(enumerate(self.world.builders, 1))
        if not machines:
            return "decline-permanently"
        able = [(m, b) for m, b in machines if self.is_eligible(drv, b) and m not in self.down]
        free = [(m, b) for m, b in able if self.load(m) < b.jobs]
        if free:
            return min((self.load(m) / b.speed, -b.speed, m) for m, b in free)[2]
        return "postpone" if able and not self.is_local_free(drv) else "decline"

    def decision(self, drv):
        """A machine, or a word."""
        home = 0 if self.is_local_free(drv) else "wait"
        if self.world.drvs[drv].prefer_local == "1" and self.is_local(drv):
            return home
        reply = self.reply(drv)
        if reply == "postpone":
            return "wait"
        if reply in ("decline", "decline-permanently"):
            return home if self.is_local(drv) else "nobuilder"
        return reply

    def step_of(self, drv):
        """The entry that a pump makes of it, if there is one."""
        decision = self.decision(drv) if self.is_ready(drv) else "wait"
        if decision == "wait":
            return None
        if decision == "nobuilder":
            return ("nobuilder", drv)
        return ("chosen", drv, decision, self.least_slot(decision))

    # -- paths

    def along(self, refers, seeds):
        reached = set(seeds)
        fresh = list(reached)
        while fresh:
            found = set(refers(fresh.pop())) - reached
            reached |= found
            fresh.extend(found)
        return reached

    def references(self, of):
        sources = [source for drv in self.world.drvs for source in drv.sources]
        if of in self.along(lambda given: self.world.info.get(given, []), sources):
            return self.world.info.get(of, [])
        return self.reports.get(of, [])

    def closure(self, drv):
        needed = set(self.world.drvs[drv].sources)
        for other, names in self.world.drvs[drv].inputs:
            needed |= {of for name, of in self.world.drvs[other].outputs if f'"{name}"' in names}
        return self.along(self.references, needed)

    def held(self, machine):
        if machine > 0:
            return self.brought[machine]
        seeds = {source for drv in self.world.drvs for source in drv.sources}
        seeds |= {of for drv in self.built for _, of in self.world.drvs[drv].outputs}
        return self.along(self.references, seeds)

    # -- which calls are allowed: none, or the name of a refusal

    def start_refusal(self, drv, paths):
        if drv not in self.leases:
            return "NotLive"
        if drv in self.started:
            return "AlreadyStarted"
        closure = self.closure(drv)
        if not closure <= self.held(self.leases[drv][0]) | set(paths):
            return "Uncovered"
        return None if set(paths) <= closure else "Extra"

    def end_refusal(self, drv, lists):
        if drv not in self.leases:
            return "NotLive"
        if drv not in self.started:
            return "NotStarted"
        outputs = [of for _, of in self.world.drvs[drv].outputs]
        allowed = self.closure(drv) | set(outputs)
        is_right = len(lists) == len(outputs) and all(set(paths) <= allowed for paths in lists)
        return None if is_right else "BadReferences"

    def refusal(self, word, operand=None, *rest):
        if word == "started":
            return self.start_refusal(operand, rest[0])
        if word == "built":
            return self.end_refusal(operand, rest[0])
        if word in ("down", "failed") and operand not in self.leases:
            return "NotLive"
        if word == "down" and operand in self.started:
            return "AlreadyStarted"
        if word == "stop" and self.is_ended:
            return "AlreadyStopped"
        return None

    def report(self):
        drvs = range(len(self.world.drvs))
        text = f"total {len(drvs)}\n"
        for status in ("waiting", "leased", "built", "failed", "cancelled"):
            text += f"{status} {sum(1 for drv in drvs if self.status(drv) == status)}\n"
        uris = ["local"] + [builder.uri for builder in self.world.builders]
        for machine, uri in enumerate(uris):
            up = "down" if machine in self.down else "up"
            text += f"machine {machine} {up} {self.load(machine)}/{self.jobs(machine)} {uri}\n"
        for drv in drvs:
            text += f"drv {drv} {self.status(drv)} {self.world.drvs[drv].path}\n"
        return text


def entry_line(word, *rest):
    text = word
    for part in rest:
        if word == "built" and part is not rest[0]:
            text += "".join(" " + " ".join(["o", *sorted(set(paths))]) for paths in part)
        elif word == "started" and part is not rest[0]:
            text += "".join(" " + copied for copied in sorted(set(part)))
        else:
            text += f" {part}"
    return text + "\n"


def lists_of(words):
    """The lists of references, of which each begins with an `o`."""
    lists = []
    for word in words:
        if word == "o":
            lists.append([])
        else:
            lists[-1].append(word)
    return lists


def entry_of(past, verb, words):
    """The entry that a command asks for."""
    drv = int(words[0]) if words else None
    if verb == "start":
        missing = past.closure(drv) - past.held(past.leases[drv][0]) if drv in past.leases else []
        return ("started", drv, sorted(missing))
    if verb == "startwith":
        return ("started", drv, words[1:])
    if verb == "built":
        bare = [[] for _ in past.world.drvs[drv].outputs]
        return ("built", drv, lists_of(words[1:]) if len(words) > 1 else bare)
    if verb == "fail":
        return ("failed", drv, f"status {words[1]}")
    if verb == "lose":
        return ("failed", drv, "lost")
    return (verb, drv) if words else (verb,)


def pump(world, history):
    """Takes the steps that are due; the text of them."""
    text = ""
    while True:
        past = Past(world, history)
        steps = (past.step_of(drv) for drv in range(len(world.drvs)))
        step = next((step for step in steps if step), None)
        if step is None:
            return text
        history.append(step)
        text += entry_line(*step)


def obey(world, history, line):
    """Does what a line of a script says; the text of it."""
    verb, *words = line.split(" ")
    past = Past(world, history)
    if verb == "ask":
        reply = past.reply(int(words[0]))
        if isinstance(reply, int):
            return f"# accept\n{world.builders[reply - 1].uri}\n"
        return f"# {reply}\n"
    entry = entry_of(past, verb, words)
    refusal = past.refusal(*entry)
    if refusal:
        return f"refused {refusal}\n"
    history.append(entry)
    return entry_line(*entry)


def simulate(world):
    """The history, the text and the status of a simulation."""
    history = []
    text = pump(world, history)
    for line in world.script.splitlines():
        text += obey(world, history, line)
        text += pump(world, history)
    past = Past(world, history)
    text += past.report()
    statuses = [past.status(drv) for drv in range(len(world.drvs))]
    return history, text, int("failed" in statuses or "cancelled" in statuses)


# ---- digests


def folded(digest, text):
    """FNV-1a of 64 bits, gone on with."""
    for byte in text.encode():
        digest = (digest ^ byte) * 1099511628211 % 2**64
    return digest


def table():
    """A digest for each block of worlds, over their texts, each with its status behind it."""
    digests = []
    for first in range(0, WORLDS, BLOCK):
        digest = 14695981039346656037
        for number in range(first, first + BLOCK):
            _, text, status = simulate(World(number))
            digest = folded(digest, text + str(status))
        digests.append(digest)
    return digests


def table_of_tests():
    """The table that the tests have."""
    with open(os.path.join(ROOT, "crates", "nd_test_sims", "src", "tests", "worlds.rt"), encoding="utf-8") as file:
        numbers = file.read().split("const DIGESTS")[1].split("= [")[1].split("]")[0]
    return [int(word) for word in numbers.replace(",", " ").split()]


def simulated(world, folder):
    """The text and the status of the built program's simulation."""
    texts = {"builders": world.builders_text, "info": world.info_text, "script": world.script}
    for name, text in texts.items():
        with open(os.path.join(folder, name), "w", encoding="utf-8") as file:
            file.write(text)
    builders, info, script = (os.path.join(folder, name) for name in texts)
    words = ["sim", "--builders", "@" + builders, "--info", info, "--script", script]
    words += ["--system", "x86_64-linux", "--jobs", str(world.jobs)]
    words += ["--extra", world.extra, "--features", world.local_features]
    words += ["--keep-going"] if world.keep_going else []
    ended = subprocess.run([PROGRAM, *words], input=world.bundle.encode(), capture_output=True, check=False)
    return ended.stdout.decode() + ended.stderr.decode(), ended.returncode


def look_at(number, folder):
    """Ends the script where the program's simulation of a world isn't that of the plain rules."""
    world = World(number)
    _, text, status = simulate(world)
    found, found_status = simulated(world, folder)
    lines = zip(text.splitlines(), found.splitlines())
    place = next((place for place, (rule, line) in enumerate(lines, 1) if rule != line), None)
    if place is not None:
        sys.exit(f"world {number}, line {place}: {found.splitlines()[place - 1]}, by the rules {text.splitlines()[place - 1]}")
    if (found, found_status) != (text, status):
        sys.exit(f"world {number}: status {found_status} and {len(found)} bytes, by the rules {status} and {len(text)}")


def show(world):
    for text in (world.bundle, world.builders_text, world.info_text, world.script):
        print(text, end="--\n")
    _, text, status = simulate(world)
    print(text, f"status {status}", sep="")


def main():
    parser = argparse.ArgumentParser()
    parser.add_argument("--world", type=int)
    parser.add_argument("--table", action="store_true")
    args = parser.parse_args()
    if args.world is not None:
        show(World(args.world))
        return
    digests = table()
    if args.table:
        print("".join(f"    {digest:_},\n" for digest in digests), end="")
        return
    if digests != table_of_tests():
        sys.exit("the table of the tests isn't that of the rules: see --table")
    with tempfile.TemporaryDirectory() as folder:
        for number in range(0, WORLDS, 8):
            look_at(number + number // 8 % 8, folder)
    print(f"worlds: the table has the {len(digests)} digests of the rules, and {WORLDS // 8} simulations are theirs")


if __name__ == "__main__":
    main()
