#!/usr/bin/env python3
"""Runs with a journal, seen from outside: what is durable when, and what is left of a run that is killed.

    python3 checks/journal.py [NAME ..]     the checks of these names, else all but `time`
    python3 checks/journal.py time          a table: what a journal costs where a sync takes 4 milliseconds

killed      runs that are killed by SIGKILL at random moments, with stand-ins and with agents, and gone on from
ordered     each call of a copy and of a build behind the sync of the entry that it stands on
refused     each append and each sync of the journal refused in turn, and each append cut short
full        a disk that fills up
told        `InUse`, `NotEmpty`, a last line that isn't whole
foreign     files that are no journal, which `run`, `serve`, `report` and `audit` refuse alike and leave as they are; and
            a journal that is cut at each of its bytes
looked_at   `report --journal` and `audit --journal` while the run goes on

It needs the built program, or one that NIX_DISPATCH names, Python 3 and a C compiler; `full` needs root besides.
"""

import collections
import fcntl
import os
import random
import signal
import subprocess
import sys
import tempfile
import threading
import time

HERE = os.path.dirname(os.path.abspath(__file__))
ROOT = os.path.dirname(HERE)
PROGRAM = os.environ.get("NIX_DISPATCH") or os.path.join(ROOT, "crates", "nix_dispatch", "out", "nix_dispatch")
sys.path.insert(0, os.path.join(ROOT, "bench"))
sys.dont_write_bytecode = True
import bench  # noqa: E402

FIRST_LINE = b"nix-dispatch-history 2\n"
ENDS = ("built", "failed", "down")
# how many runs are killed
RUNS = 200


def fail(text):
    sys.exit(f"journal: {text}")


# Graphs, parks and agents


def layered(size, width, seed=1):
    """Layers of so many derivations; each needs one to four of the layer before."""
    rng = random.Random(seed)
    nodes = []
    for number in range(size):
        first = number - number % width
        before = nodes[max(0, first - width) : first]
        inputs = rng.sample(before, min(len(before), rng.randint(1, 4)))
        nodes.append(bench.derivation(number, inputs))
    return nodes


class Agents:
    """A process with an agent for each slot of machine 1, which notes each build as it begins and takes so many
    seconds for it."""

    def __init__(self, folder, slots, seconds):
        self.folder = os.path.join(folder, "agents")
        self.notes = os.path.join(folder, "begun")
        self.words = [str(slots), str(seconds)]
        self.process = None
        os.makedirs(self.folder, exist_ok=True)
        for slot in range(slots):
            for kind in ("calls", "answers"):
                name = os.path.join(self.folder, f"1.{slot}.{kind}")
                if not os.path.exists(name):
                    os.mkfifo(name)

    def begin(self):
        words = [sys.executable, os.path.abspath(__file__), "agents", self.folder, self.notes, *self.words]
        self.process = subprocess.Popen(words, stdout=subprocess.PIPE)
        self.process.stdout.readline()

    def end(self):
        """The agents end with the run. They wait for ever where it didn't open their pipes."""
        try:
            self.process.wait(5)
        except subprocess.TimeoutExpired:
            self.kill()

    def kill(self):
        self.process.kill()
        self.process.wait()

    def begun(self):
        """The derivations whose builds began, in order."""
        if not os.path.exists(self.notes):
            return []
        with open(self.notes, encoding="ascii") as file:
            return file.read().split()


def be_agents(folder, notes, slots, seconds):
    """The process of the agents: it ends when the run closes its pipes."""
    noted = os.open(notes, os.O_WRONLY | os.O_APPEND | os.O_CREAT)

    def serve(slot):
        name = os.path.join(folder, f"1.{slot}")
        with open(f"{name}.calls", encoding="ascii") as calls, open(f"{name}.answers", "w", encoding="ascii") as answers:
            for call in calls:
                words = call.split()
                answer = "yes"
                if words[0] == "build":
                    os.write(noted, words[1].encode() + b"\n")
                    time.sleep(float(seconds))
                    answer = "built" + " o" * (len(words) - 2)
                try:
                    answers.write(answer + "\n")
                    answers.flush()
                except BrokenPipeError:
                    return

    signal.signal(signal.SIGPIPE, signal.SIG_IGN)
    threads = [threading.Thread(target=serve, args=(slot,)) for slot in range(int(slots))]
    for thread in threads:
        thread.start()
    print("ready", flush=True)
    for thread in threads:
        thread.join()


# Runs


class Case:
    """A graph on a park, in a folder with its bundle and its journal."""

    def __init__(self, folder, nodes, slots, rules="", agents=None, options=()):
        self.folder = folder
        self.nodes = nodes
        self.journal = os.path.join(folder, "journal")
        self.bundle = os.path.join(folder, "bundle")
        self.agents = agents
        with open(self.bundle, "w", encoding="ascii") as out:
            out.write(bench.bundle_of(nodes))
        self.given = ["--bundle", self.bundle, "--builders", f"m - - {slots}", "--jobs", "0", *options]
        self.by = []
        if agents:
            self.by = ["--agents", agents.folder]
        elif rules:
            stand = os.path.join(folder, "stand")
            with open(stand, "w", encoding="ascii") as out:
                out.write(rules)
            self.by = ["--stand", stand]

    def run(self, *words, killed_after=None, journal=True, **surroundings):
        """A run up to its end, or one that is killed after so many seconds: its status, and what it wrote to each
        output. The status of a killed one is -9. What it took is in `seconds`."""
        words = [PROGRAM, "run", *self.given, *self.by, *words]
        if journal:
            words += ["--journal", self.journal]
        if self.agents:
            self.agents.begin()
        env = {**os.environ, **surroundings}
        began = time.monotonic()
        # a run writes to an agent that is gone
        ended = subprocess.Popen(words, stdout=subprocess.PIPE, stderr=subprocess.PIPE, env=env, preexec_fn=ignore_pipes)
        try:
            out, said = ended.communicate(timeout=killed_after)
        except subprocess.TimeoutExpired:
            ended.kill()
            if self.agents:
                self.agents.kill()
            out, said = ended.communicate()
        self.seconds = time.monotonic() - began
        if self.agents and ended.returncode >= 0:
            self.agents.end()
        return ended.returncode, out, said.decode()

    def tell(self, command, **surroundings):
        """`audit --journal` or `report --journal`: the status, and what it wrote."""
        words = [PROGRAM, command, *self.given, "--journal", self.journal]
        ended = subprocess.run(words, capture_output=True, check=False, env={**os.environ, **surroundings})
        return ended.returncode, ended.stdout.decode(), ended.stderr.decode()

    def serve(self):
        """A session that goes on from the journal, and is told nothing: its status, and what it wrote to each output."""
        words = [PROGRAM, "serve", *self.given, "--journal", self.journal, "--resume"]
        ended = subprocess.run(words, stdin=subprocess.DEVNULL, capture_output=True, check=False)
        return ended.returncode, ended.stdout, ended.stderr.decode()

    def bytes(self):
        if not os.path.exists(self.journal):
            return b""
        with open(self.journal, "rb") as file:
            return file.read()

    def hold(self, held):
        """Has the journal hold these bytes, and nothing else."""
        with open(self.journal, "wb") as file:
            file.write(held)

    def whole(self):
        """The journal, less a last line that isn't whole."""
        held = self.bytes()
        return held[: held.rfind(b"\n") + 1]

    def forget(self):
        for name in (self.journal, self.agents and self.agents.notes):
            if name and os.path.exists(name):
                os.remove(name)

    def look_at(self, what):
        """The entries of the journal, which has to be a legal one in which nothing starts or is built twice."""
        if not os.path.exists(self.journal):
            # it was killed before the file was made
            return []
        held = self.whole()
        if held and not held.startswith(FIRST_LINE):
            fail(f"{what}: the journal begins with {held[:40]!r}")
        entries = [line.split() for line in held.decode().splitlines()[1:]]
        status, out, said = self.tell("audit")
        if (status, out) != (0, f"legal {len(entries)}\n"):
            fail(f"{what}: audit --journal: status {status}, {out}{said}")
        for word in ("started", "built"):
            count = collections.Counter(entry[1] for entry in entries if entry[0] == word)
            twice = [drv for drv, times in count.items() if times > 1]
            # a lease that was lost or given back is no reason to start a derivation again in one run
            if twice:
                fail(f"{what}: {word} stands twice of {twice[:5]}")
        return entries


def ignore_pipes():
    signal.signal(signal.SIGPIPE, signal.SIG_IGN)


def drvs_of(entries, word):
    return {int(entry[1]) for entry in entries if entry[0] == word}


def statuses(report):
    """The lines of a report that say how the derivations stand."""
    return [line for line in report.splitlines() if line.startswith("drv ")]


def library(folder):
    name = os.path.join(folder, "journal.so")
    words = ["cc", "-shared", "-fPIC", "-O1", "-o", name, os.path.join(HERE, "journal.c"), "-ldl", "-lpthread"]
    subprocess.run(words, check=True)
    return name


# Killed, and gone on from


def kill_and_go_on(case, rng, seconds, kills, what, **surroundings):
    """A run that is killed so often at most, and gone on from up to its end: how often it was killed, and its
    report."""
    case.forget()
    killed = 0
    before = b""
    resume = []
    while True:
        last = killed == kills
        after = None if last else rng.uniform(0, seconds)
        status, out, said = case.run("--report", *resume, killed_after=after, **surroundings)
        if status not in (0, 1, -9) or said:
            fail(f"{what}: status {status}, {said}")
        held = case.whole()
        if not held.startswith(before):
            fail(f"{what}: entries of the journal are gone")
        entries = case.look_at(what)
        before = held
        resume = ["--resume"]
        if status != -9:
            break
        killed += 1
        if case.agents:
            built = drvs_of(entries, "built")
            case.kept.append((len(case.agents.begun()), {case.nodes[drv].path for drv in built}))
    history, _, report = out.partition(b"total ")
    if history.partition(b"\n")[2] != held[len(FIRST_LINE) :]:
        fail(f"{what}: what is written isn't what the journal holds")
    return killed, "total " + report.decode()


def killed(folder):
    """Runs with stand-ins, and a tenth as many with agents."""
    rng = random.Random(20_261)
    nodes = layered(1_000, 100)
    rules = "".join(f"fail {drv} 3\n" for drv in (217, 430)) + "lose 555\n"
    rules += "".join(f"built {drv} o {nodes[drv].output}\n" for drv in range(0, 1_000, 7) if drv not in (217, 430, 555))
    case = Case(folder, nodes, 64, rules, options=["--keep-going"])
    # stand-ins take no time, so a sync does
    slowly = {"LD_PRELOAD": library(folder), "SYNC_MS": "2"}
    status, out, said = case.run("--report", **slowly)
    seconds = case.seconds
    if status != 1 or said:
        fail(f"killed: a run that isn't killed ends with status {status}, {said}")
    whole = statuses(out.decode())
    kills = often = 0
    for turn in range(RUNS):
        times, report = kill_and_go_on(case, rng, seconds, 1 + turn % 4, f"killed, run {turn}", **slowly)
        if statuses(report) != whole:
            fail(f"killed, run {turn}: it ends otherwise than one that isn't killed")
        kills += times
        often += times > 1
    if kills < RUNS:
        fail(f"killed: only {kills} times before its end")
    print(f"killed: {RUNS} runs of 1,000 derivations on 64 slots, killed {kills} times, {often} of them more than once: "
          "each journal legal, and gone on from")
    killed_with_agents(folder, rng)


def killed_with_agents(folder, rng):
    nodes = layered(300, 60)
    place = os.path.join(folder, "called")
    os.mkdir(place)
    case = Case(place, nodes, 16, agents=Agents(place, 16, 0.01))
    status, _, said = case.run()
    seconds = case.seconds
    if status != 0 or said:
        fail(f"killed with agents: status {status}, {said}")
    kills = again = 0
    for turn in range(RUNS // 10):
        case.kept = []
        what = f"killed with agents, run {turn}"
        times, report = kill_and_go_on(case, rng, seconds, 1 + turn % 3, what)
        if "\nbuilt 300\n" not in report:
            fail(f"{what}: not all is built")
        begun = case.agents.begun()
        for count, built in case.kept:
            done = built & set(begun[count:])
            if done:
                fail(f"{what}: built again behind a kill: {sorted(done)[:3]}")
        most = max(collections.Counter(begun).values())
        if most > 1 + times or len(begun) > 300 + 16 * times or set(begun) != {node.path for node in nodes}:
            fail(f"{what}: {len(begun)} builds, one of them {most} times, for {times} kills")
        kills += times
        again += len(begun) - 300
    print(f"killed with agents: {RUNS // 10} runs of 300 derivations on 16 slots, killed {kills} times: {again} builds that a kill "
          "had ended are begun again, and none that was built")


# What is called when


def look_at_order(case, log, what):
    """Each copy and each build is called behind the sync of its entry; how many calls there were."""
    held = case.bytes()
    durable = 0
    entries = []
    counts = collections.Counter()
    on, started = {}, set()

    def hear(text):
        for line in text.decode().splitlines():
            entry = line.split()
            if entry[0] == "chosen":
                on[f"{entry[2]}.{entry[3]}"] = int(entry[1])
                started.discard(int(entry[1]))
            elif entry[0] == "started":
                started.add(int(entry[1]))
            elif entry[0] in ENDS:
                for place in [place for place, drv in on.items() if drv == int(entry[1])]:
                    del on[place]
            entries.append(entry)

    with open(log, encoding="ascii") as lines:
        for line in lines:
            words = line.split()
            if words[0] == "sync":
                now = int(words[1])
                if now > durable:
                    hear(held[durable:now])
                    durable = now
            elif words[0] == "call" and words[2] in ("connect", "copy", "build"):
                place, call = words[1], words[2]
                counts[call] += 1
                if place not in on:
                    fail(f"{what}: {call} on {place} before its chosen is durable")
                if call == "build" and (on[place] not in started or case.nodes[on[place]].path != words[3]):
                    fail(f"{what}: {line.strip()[:90]} before its started is durable")
    return counts, durable


def ordered(folder):
    """Runs with agents, whose calls are looked at; one of them is gone on from."""
    nodes = layered(400, 80)
    case = Case(folder, nodes, 16, agents=Agents(folder, 16, 0.002))
    log = os.path.join(folder, "log")
    given = {"LD_PRELOAD": library(folder), "JOURNAL": case.journal, "LOG": log}
    for pause in ({}, {"SYNC_MS": "4"}):
        case.forget()
        if os.path.exists(log):
            os.remove(log)
        status, _, said = case.run(**given, **pause)
        if status != 0:
            fail(f"ordered: status {status}, {said}")
        case.forget()
        os.remove(log)
        status, _, said = case.run(killed_after=case.seconds / 2, **given, **pause)
        if status != -9:
            fail(f"ordered: the run that is to be killed ends with status {status}, {said}")
        status, _, said = case.run("--resume", **given, **pause)
        if status != 0:
            fail(f"ordered: status {status}, {said}")
        case.look_at("ordered")
        counts, durable = look_at_order(case, log, "ordered")
        if durable != len(case.bytes()):
            fail("ordered: the end of the journal isn't durable")
        with open(log, encoding="ascii") as lines:
            syncs = sum(line.startswith("sync ") for line in lines)
    print(f"ordered: {counts['copy']} copies and {counts['build']} builds, each behind the sync of its entry, "
          f"by {syncs} syncs of 4 ms")


# A journal that is refused


def refuse(case, given, log, what):
    """One run whose journal is refused, and one that goes on from what it left: whether the first met the refusal."""
    case.forget()
    if os.path.exists(log):
        os.remove(log)
    status, _, said = case.run(**given)
    if status == 0:
        return False
    if (status, said) != (5, "nix-dispatch: journal failed\n"):
        fail(f"{what}: status {status}, {said}")
    case.look_at(what)
    _, durable = look_at_order(case, log, what)
    # what was begun stands in the durable part
    entries = [line.split() for line in case.bytes()[:durable].decode().splitlines()]
    began = {case.nodes[drv].path for drv in drvs_of(entries, "started")}
    if not set(case.agents.begun()) <= began:
        fail(f"{what}: a build began behind the refusal")
    before = case.whole()
    status, _, said = case.run("--resume")
    if (status, said) != (0, ""):
        fail(f"{what}: gone on from with status {status}, {said}")
    entries = case.look_at(what)
    if len(drvs_of(entries, "built")) != len(case.nodes) or not case.whole().startswith(before):
        fail(f"{what}: not all is built behind it")
    return True


def refused(folder):
    nodes = layered(12, 3)
    case = Case(folder, nodes, 2, agents=Agents(folder, 2, 0))
    log = os.path.join(folder, "log")
    given = {"LD_PRELOAD": library(folder), "JOURNAL": case.journal, "LOG": log}
    told = []
    for kind in ("REFUSE_APPEND", "REFUSE_SYNC", "CUT_APPEND"):
        number = 1
        while refuse(case, {**given, kind: str(number)}, log, f"{kind} {number}"):
            number += 1
        if number < 10:
            fail(f"{kind}: only {number - 1} were refused")
        told.append(number - 1)
    print(f"refused: {told[0]} appends and {told[1]} syncs refused, {told[2]} appends cut short: status 5, nothing is begun "
          "behind it, and the file is gone on from")


def full(folder):
    """A disk of 16 KiB, which is made larger for the run that goes on."""
    if os.geteuid() != 0:
        print("full: skipped, it is for root")
        return
    place = os.path.join(folder, "small")
    os.mkdir(place)
    subprocess.run(["mount", "-t", "tmpfs", "-o", "size=16k", "tmpfs", place], check=True)
    try:
        case = Case(folder, layered(1_000, 100), 64)
        case.journal = os.path.join(place, "journal")
        status, _, said = case.run()
        if (status, said) != (5, "nix-dispatch: journal failed\n"):
            fail(f"full: status {status}, {said}")
        entries = case.look_at("full")
        before = case.whole()
        subprocess.run(["mount", "-o", "remount,size=1m", place], check=True)
        status, _, said = case.run("--resume")
        if (status, said) != (0, "") or not case.whole().startswith(before):
            fail(f"full: gone on from with status {status}, {said}")
        if len(drvs_of(case.look_at("full"), "built")) != 1_000:
            fail("full: not all is built behind it")
    finally:
        subprocess.run(["umount", place], check=False)
    print(f"full: a disk that is full behind {len(entries)} entries: status 5, and gone on from with more room")


# What is refused, and what is looked at


def told(folder):
    case = Case(folder, layered(40, 10), 4)
    if case.run("--report")[0] != 0:
        fail("told: a run that nothing disturbs fails")
    whole = case.bytes()

    def is_told(fault, *words):
        held = case.bytes()
        status, out, said = case.run(*words)
        if (status, out, said) != (3, b"", f"nix-dispatch: journal: {fault}\n") or case.bytes() != held:
            fail(f"told: {fault} isn't, but status {status}, {said}")

    is_told("NotEmpty")
    with open(case.journal, "rb") as file:
        fcntl.flock(file, fcntl.LOCK_EX)
        is_told("InUse", "--resume")
        is_told("InUse")
        for command in ("audit", "report"):
            if case.tell(command)[0] != 0:
                fail(f"told: {command} --journal wants the lock")
    # half of it, with every beginning of the line behind it
    lines = whole.splitlines(keepends=True)
    kept, line = b"".join(lines[:40]), lines[40]
    for length in range(1, len(line)):
        with open(case.journal, "wb") as file:
            file.write(kept + line[:length])
        if len(case.look_at("a torn line")) != 39 or case.tell("report")[0] != 0:
            fail(f"told: {length} bytes of a line count")
        status, _, said = case.run("--resume")
        if status != 0 or not case.bytes().startswith(kept) or len(drvs_of(case.look_at("a torn line"), "built")) != 40:
            fail(f"told: {length} bytes of a line: gone on from with status {status}, {said}")
    with open(case.journal, "wb") as file:
        file.write(kept + b"nothing\n")
    is_told("BadLine 41", "--resume")
    with open(case.journal, "wb") as file:
        file.write(kept + b"built 39 o\n")
    status, out, said = case.run("--resume")
    if status != 3 or not said.startswith("nix-dispatch: journal: Illegal 39 "):
        fail(f"told: an entry that isn't legal: status {status}, {said}")
    print(f"told: NotEmpty, InUse, BadLine and Illegal, and {len(line) - 1} beginnings of a last line that are cut away")


def foreign(folder):
    case = Case(folder, layered(6, 3), 2)
    if case.run("--report")[0] != 0:
        fail("foreign: a run that nothing disturbs fails")
    whole = case.bytes()
    lines = whole.splitlines(keepends=True)
    front, behind = b"".join(lines[:5]), len(lines) + 1
    first = whole.replace(b"history 2", b"history 1")
    rng = random.Random(1)
    texts = [
        # no first line
        (1, b"line without newline, my notes"),
        (1, b"chosen"),
        (1, b"\n"),
        (1, b"\0"),
        (1, b"Nix-dispatch"),
        (1, FIRST_LINE[:-1] + b" "),
        (1, FIRST_LINE[:-1] + b"\r\n"),
        (1, FIRST_LINE[1:]),
        (1, b"my notes\n" + whole),
        # version 1, whole and cut
        (1, first),
        (1, first[:-3]),
        (1, first[: len(FIRST_LINE)]),
        (1, first[: len(FIRST_LINE) - 1]),
        # a whole line that is none, whatever stands behind it
        (6, front + b"my notes\n"),
        (6, front + b"\n"),
        (6, front + b"built\nmy notes"),
        # a last line that isn't finished, and is none
        (2, FIRST_LINE + b"my notes"),
        (6, front + b"my notes"),
        (6, front + b" "),
        (6, front + b"started,"),
        (6, front + b"startedly"),
        (6, front + b"built 0 o\0"),
        (6, front + b"built 0 o\r"),
        (6, front + b"down 01234567890"),
        (6, front + b"stop "),
        (behind, whole + b"my notes, behind all that is built"),
        (behind, whole + b"\0" * 4096),
        (behind, whole + b"\xff"),
        (behind, whole + b"chosen" + b" 1" * 17),
        (behind, whole + b"y" * 100_000),
    ]
    texts += [(behind, whole + b"!" + rng.randbytes(99).replace(b"\n", b" ")) for _ in range(20)]
    for line, held in texts:
        case.hold(held)
        refusal = f"nix-dispatch: journal: BadLine {line}\n"
        for what, (status, out, said) in (
            ("run --resume", case.run("--resume")),
            ("serve --resume", case.serve()),
            ("report --journal", case.tell("report")),
            ("audit --journal", case.tell("audit")),
        ):
            if (status, len(out), said) != (3, 0, refusal):
                fail(f"foreign: {what} of {held[-60:]!r}: status {status}, {out[:80]!r}, {said}, and not BadLine {line}")
            if case.bytes() != held:
                fail(f"foreign: {what} changes {held[-60:]!r}")

    # what a crash may leave: a journal that is cut at each of its bytes
    for length in range(len(whole) + 1):
        held = whole[:length]
        count = max(0, held.count(b"\n") - 1)
        case.hold(held)
        audit, report = case.tell("audit"), case.tell("report")
        if audit != (0, f"legal {count}\n", "") or report[0] != 0 or report[2] or case.bytes() != held:
            fail(f"foreign: {length} bytes of a journal: {audit}, {report}")
        if length % 2:
            status, _, said = case.serve()
            if status or said or not case.bytes().startswith(case.whole()) or not case.whole().startswith(held[: held.rfind(b"\n") + 1]):
                fail(f"foreign: {length} bytes of a journal: a session ends with status {status}, {said}")
            case.hold(held)
        status, _, said = case.run("--resume")
        if status or said or len(drvs_of(case.look_at("a cut journal"), "built")) != 6:
            fail(f"foreign: {length} bytes of a journal: gone on from with status {status}, {said}")
    print(f"foreign: {len(texts)} files that are no journal left as they are, and one cut at each of {len(whole)} bytes gone on from")


def looked_at(folder):
    case = Case(folder, layered(300, 60), 16, agents=Agents(folder, 16, 0.15))
    ended = []
    thread = threading.Thread(target=lambda: ended.append(case.run()))
    thread.start()
    looks, last = 0, -1
    while thread.is_alive():
        if not os.path.exists(case.journal):
            time.sleep(0.01)
            continue
        status, out, said = case.tell("audit")
        words = out.split()
        if status != 0 or words[0] != "legal" or int(words[1]) < last:
            fail(f"looked_at: audit --journal: status {status}, {out}{said}")
        last = int(words[1])
        status, out, said = case.tell("report")
        counts = dict(line.split()[:2] for line in out.splitlines()[:6])
        if status not in (0, 1) or said or counts["total"] != "300" or sum(int(counts[word]) for word in counts) != 600:
            fail(f"looked_at: report --journal: status {status}, {counts}, {said}")
        looks += 1
    thread.join()
    if ended[0][0] != 0 or looks < 3:
        fail(f"looked_at: the run ends with status {ended[0][0]}, {ended[0][2]}, behind {looks} looks")
    print(f"looked_at: {looks} reports and audits of a journal while its run went on")


# What it costs


def measured(case, journal, **surroundings):
    """The seconds of the best of three runs."""
    best = 0
    for _ in range(3):
        case.forget()
        status, _, said = case.run(journal=journal, **surroundings)
        if status != 0:
            fail(f"time: status {status}, {said}")
        best = case.seconds if best == 0 else min(best, case.seconds)
    return best


def timed(folder):
    """Layers of 8,192 derivations on 64 slots."""
    preload = library(folder)
    nodes = layered(8_192, 256)
    print("| 8,192 derivations in layers of 256, on 64 slots, seconds | no journal | a journal, its disk's syncs | a journal, syncs of 4 ms |")
    print("| --- | --: | --: | --: |")
    for name, seconds in (("stand-ins", None), ("agents without time", 0), ("agents of 50 ms", 0.05)):
        place = os.path.join(folder, name.replace(" ", "-"))
        os.mkdir(place)
        agents = None if seconds is None else Agents(place, 64, seconds)
        case = Case(place, nodes, 64, agents=agents)
        row = [measured(case, False), measured(case, True), measured(case, True, LD_PRELOAD=preload, SYNC_MS="4")]
        print(f"| {name} | " + " | ".join(f"{took:.2f}" for took in row) + " |")
        sys.stdout.flush()


CHECKS = {
    "killed": killed,
    "ordered": ordered,
    "refused": refused,
    "full": full,
    "told": told,
    "foreign": foreign,
    "looked_at": looked_at,
}


def main():
    names = sys.argv[1:]
    if names[:1] == ["agents"]:
        be_agents(*names[1:])
        return
    if not os.access(PROGRAM, os.X_OK):
        fail("the program is not built: ./build")
    for name in names or CHECKS:
        with tempfile.TemporaryDirectory() as folder:
            (timed if name == "time" else CHECKS[name])(os.path.realpath(folder))


if __name__ == "__main__":
    main()
