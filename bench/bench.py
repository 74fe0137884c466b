#!/usr/bin/env python3
"""Runs the built program on inputs of growing size, and prints a table of seconds and memory.

    python3 bench/bench.py [PROGRAM] [--only WORD] [--sizes N,N,..] [--best N] [--time-limit SECONDS] [--markdown]

PROGRAM is `crates/nix_dispatch/out/nix_dispatch` where it is left out. The inputs are made here, from
fixed seeds, so each run of this script measures the same ones. Each is read by `ask`, `ask
--check-paths`, `sim` with a script that starts and builds every derivation, `run`, and `audit` of the
simulation's history (of the run's, where the simulation took too long).

A line has the seconds of the fastest of N runs (3; fewer where they take over 10 seconds together), the
peak memory of the program itself, the megabytes of the files that it read and of what it wrote, and
beside seconds and memory by how much they grew for each doubling since the last size: 2.00 is linear.
What takes more than the time limit (60 seconds) is stopped and stands as `> 60`, and greater sizes of
that input and command are left out. What a command answers is looked at: a derivation that isn't built,
or a history that isn't legal, ends the script.

`--only WORD` takes the lines whose input or command has the word, and narrows further where it stands
more than once; `--sizes` puts other numbers of derivations in place of each input's own; `--markdown`
prints a table for a document.

Needed is GNU `time`: what the system tells of a child's peak memory counts that of the process which
starts it, and an interpreter's is larger than the program's.
"""

import argparse
import base64
import hashlib
import math
import os
import random
import signal
import subprocess
import sys
import tempfile
import threading
import time
from typing import Callable, NamedTuple

LETTERS = "0123456789abcdfghijklmnpqrsvwxyz"
DOUBLING = (1_024, 2_048, 4_096, 8_192, 16_384, 32_768, 65_536)
INPUT_LIMIT = 67_108_864
LONG_ENOUGH = 10


# Texts


def base32(digest):
    number = int.from_bytes(digest, "little")
    return "".join(LETTERS[number >> 5 * k & 31] for k in range(31, -1, -1))


def store_path(text, name):
    folded = bytearray(20)
    for place, byte in enumerate(hashlib.sha256(text.encode()).digest()):
        folded[place % 20] ^= byte
    return f"/nix/store/{base32(folded)}-{name}"


def derivation_path(name, references, contents):
    """The path that a derivation with this text has."""
    digest = hashlib.sha256(contents.encode()).hexdigest()
    refs = "".join(":" + path for path in sorted(references))
    return store_path(f"text{refs}:sha256:{digest}:/nix/store:{name}", name)


def quoted(text):
    return '"' + text.replace("\\", "\\\\").replace('"', '\\"').replace("\n", "\\n") + '"'


class Derivation(NamedTuple):
    path: str
    output: str
    line: str


def derivation(number, inputs=(), system="x86_64-linux", features="", length=0, variables=()):
    """A derivation with one output, whose line of a bundle has at least this length."""
    short = padded_derivation(number, inputs, system, features, "", variables)
    if len(short.line) >= length:
        return short
    filler = base64.b64encode(hashlib.sha512(str(number).encode()).digest() * 16).decode()
    padding = filler[: length - len(short.line)]
    return padded_derivation(number, inputs, system, features, padding, variables)


def padded_derivation(number, inputs, system, features, padding, variables):
    output = store_path(f"output {number}", f"n{number}")
    env = [("name", f"n{number}"), ("out", output), ("text", padding), *variables]
    if features:
        env.append(("requiredSystemFeatures", features))
    paths = sorted(node.path for node in inputs)
    drvs = ",".join(f'({quoted(path)},["out"])' for path in paths)
    pairs = ",".join(f"({quoted(key)},{quoted(value)})" for key, value in sorted(env))
    text = (
        f'Derive([("out",{quoted(output)},"","")],[{drvs}],[],'
        f'{quoted(system)},"/bin/sh",["-c","build"],[{pairs}])'
    )
    path = derivation_path(f"n{number}.drv", paths, text)
    return Derivation(path, output, f"{path} {text}\n")


def bundle_of(nodes):
    return "".join(node.line for node in nodes)


def plain(n):
    """A bundle of derivations that need nothing."""
    return bundle_of(derivation(k) for k in range(n))


def script_of(order, references=None):
    """Starts and builds each derivation in this order, and reports its references."""
    reported = references or {}
    return "".join(f"start {k}\n{built_line(k, reported)}" for k in order)


def built_line(number, references):
    words = ["built", str(number)]
    if number in references:
        words += ["o", *references[number]]
    return " ".join(words) + "\n"


# Inputs


class Given(NamedTuple):
    """What the commands read: texts of the forms of docs/DESIGN.md, and the options of the local machine."""

    bundle: str
    builders: str
    script: str
    stand: str = ""
    local: tuple[str, ...] = ("--jobs", "0")


CLASSES = (
    ("x86_64-linux", ""),
    ("x86_64-linux", "big-parallel"),
    ("x86_64-linux", "kvm nixos-test"),
    ("aarch64-linux", ""),
    ("aarch64-linux", "big-parallel"),
)


def eight_builders():
    return ";".join(["m - - 8"] * 8)


def class_builders():
    """64 machines of 4 jobs, in five classes of systems and features."""
    rows = []
    for k in range(64):
        system, features = CLASSES[k % len(CLASSES)]
        rows.append(f"m{k} {system} - 4 1 {features.replace(' ', ',') or '-'}")
    return ";".join(rows)


def plain_lines(n):
    return Given(plain(n), eight_builders(), script_of(range(n)))


def chain(n):
    """Each derivation needs the one before it."""
    nodes = []
    for k in range(n):
        nodes.append(derivation(k, nodes[-1:]))
    return Given(bundle_of(nodes), eight_builders(), script_of(range(n)))


def layers(n):
    """Layers of 64 derivations; each needs 2 to 8 of the layer before."""
    rng = random.Random(20_061)
    nodes = []
    for k in range(n):
        first = k - k % 64
        before = nodes[first - 64 : first] if first else []
        inputs = rng.sample(before, rng.randint(2, 8)) if before else []
        system, features = rng.choice(CLASSES)
        nodes.append(derivation(k, inputs, system, features, length=1_000))
    return Given(bundle_of(nodes), class_builders(), script_of(range(n)))


def environment(number, inputs):
    """Variables as a package has them: the paths of its inputs, flags, and phases of several lines."""
    return {
        "buildInputs": " ".join(node.output for node in inputs),
        "buildPhase": 'runHook preBuild\nmake -j$NIX_BUILD_CORES "PREFIX=$out" \\\n  all\nrunHook postBuild\n',
        "builder": "/bin/sh",
        "configureFlags": f"--prefix=/usr/n{number} --disable-static --enable-shared --with-ssl",
        "depsBuildBuild": "",
        "doCheck": "1",
        "installPhase": 'runHook preInstall\nmake install "DESTDIR=$out"\nrm -f "$out"/lib/*.la\nrunHook postInstall\n',
        "nativeBuildInputs": " ".join(node.output for node in inputs[:2]),
        "outputs": "out",
        "patches": "",
        "pname": f"package-{number}",
        "preferLocalBuild": "",
        "propagatedBuildInputs": "",
        "src": store_path(f"source {number}", f"package-{number}.tar.gz"),
        "stdenv": store_path("stdenv", "stdenv-linux"),
        "strictDeps": "1",
        "system": "x86_64-linux",
        "version": f"1.{number % 100}",
    }.items()


def real_environments(n):
    """Layers of 64 derivations of some two kilobytes, with the variables of packages; each needs 2 to 6
    of the layer before."""
    rng = random.Random(20_063)
    nodes = []
    for k in range(n):
        first = k - k % 64
        before = nodes[first - 64 : first] if first else []
        inputs = rng.sample(before, rng.randint(2, 6)) if before else []
        nodes.append(derivation(k, inputs, length=2_000, variables=environment(k, inputs)))
    return Given(bundle_of(nodes), eight_builders(), script_of(range(n)))


def many_machines(n):
    builders = ";".join(f"m{k} - - 1" for k in range(1_024))
    return Given(plain(n), builders, script_of(range(n)))


def deep_references(n):
    """In each class layers of 16 derivations: each needs 2 to 8 of the layer before, and refers to most
    of their outputs. So what it needs is most of what its class has built."""
    rng = random.Random(20_062)
    row = len(CLASSES)
    nodes, references = [], {}
    for k in range(n):
        first = k - k % (16 * row)
        before = nodes[first - 16 * row : first][k % row :: row] if first else []
        inputs = rng.sample(before, rng.randint(2, 8)) if before else []
        nodes.append(derivation(k, inputs, *CLASSES[k % row]))
        references[k] = [node.output for node in inputs if rng.random() < 0.8]
    stand = "".join(built_line(k, references) for k in range(n))
    return Given(bundle_of(nodes), class_builders(), script_of(range(n), references), stand)


def own_features(n):
    """Each derivation needs a feature of its own, which one of 64 machines has."""
    nodes = [derivation(k, features=f"f{k}") for k in range(n)]
    machines = (",".join(f"f{k}" for k in range(m, n, 64)) for m in range(64))
    builders = ";".join(f"m{m} - - 4 1 {features or '-'}" for m, features in enumerate(machines))
    return Given(bundle_of(nodes), builders, script_of(range(n)))


def waiting_groups(n):
    """64 groups, each with a feature of its own, wait for the one slot of a machine, while another
    machine builds all that is left."""
    waiting = [derivation(k, system="aarch64-linux", features=f"g{k % 64}") for k in range(128)]
    others = [derivation(k) for k in range(128, n)]
    features = ",".join(f"g{k}" for k in range(64))
    builders = f"slow aarch64-linux - 1 1 {features};fast x86_64-linux - 8"
    order = [*range(128, n), *range(128)]
    return Given(bundle_of(waiting + others), builders, script_of(order))


def local_preferred(n):
    """Derivations of 256 kinds that prefer the local machine, which has one job and builds them one after another,
    though each of 272 builders has the features of all kinds but one."""
    names = [f"f{k}" for k in range(256)]
    variables = [("preferLocalBuild", "1")]
    nodes = [derivation(k, features=names[k % 256], variables=variables) for k in range(n)]
    rows = (",".join(name for k, name in enumerate(names) if k != m % 256) for m in range(272))
    builders = ";".join(f"m{m} - - 1 1 {features}" for m, features in enumerate(rows))
    local = ("--jobs", "1", "--features", ",".join(names))
    return Given(bundle_of(nodes), builders, script_of(range(n)), local=local)


class Input(NamedTuple):
    name: str
    make: Callable[[int], Given]
    sizes: tuple[int, ...]


INPUTS = (
    Input("plain lines", plain_lines, DOUBLING),
    Input("a chain", chain, DOUBLING),
    Input("layers, 1 KB texts", layers, DOUBLING),
    Input("real environments", real_environments, (3_700, 7_400, 14_800, 29_600)),
    Input("1,024 machines", many_machines, (65_536,)),
    Input("deep references", deep_references, (1_024, 8_192, 32_768)),
    Input("a feature for each", own_features, (2_048, 16_384)),
    Input("64 groups wait", waiting_groups, (8_192, 65_536)),
    Input("local preferred", local_preferred, (8_192, 65_536)),
)


# Measuring


class Measured(NamedTuple):
    seconds: float
    peak: int
    bytes_in: int
    bytes_out: int


class Bench:
    """The program, and a folder with what it reads and writes."""

    def __init__(self, program, folder, best, limit):
        self.program = program
        self.folder = folder
        self.best = best
        self.limit = limit
        self.local = ()

    def file(self, name):
        return os.path.join(self.folder, name)

    def write(self, name, text):
        with open(self.file(name), "w", encoding="ascii") as out:
            out.write(text)

    def read(self, name):
        with open(self.file(name), "rb") as written:
            return written.read()

    def give(self, given):
        self.local = given.local
        for name in ("bundle", "builders", "script", "stand"):
            self.write(name, getattr(given, name))

    def measured(self, command, option=None):
        """The fastest of some runs, or None where one took too long. What was written is in `output`."""
        words = [*command.split(), *self.local, "--builders", "@" + self.file("builders")]
        read = ["bundle", "builders"]
        if option:
            words += ["--" + option, self.file(option)]
            read.append(option)
        seconds, peak = [], 0
        while len(seconds) < self.best and sum(seconds) <= LONG_ENOUGH:
            once = self.run(words)
            if once is None:
                return None
            seconds.append(once[0])
            peak = max(peak, once[1])
        bytes_in = sum(os.path.getsize(self.file(name)) for name in read)
        return Measured(min(seconds), peak, bytes_in, os.path.getsize(self.file("output")))

    def run(self, words):
        """The seconds and the peak memory in bytes of one run, or None where it took too long."""
        timed = ["time", "--quiet", "--format", "%M", "--output", self.file("peak")]
        with open(self.file("bundle"), "rb") as stdin, open(self.file("output"), "wb") as stdout:
            began = time.monotonic()
            child = subprocess.Popen(
                [*timed, self.program, *words], stdin=stdin, stdout=stdout, start_new_session=True
            )
            # a wait with a time limit would look only every 50 milliseconds
            stop = threading.Timer(self.limit, os.killpg, (child.pid, signal.SIGKILL))
            stop.start()
            status = child.wait()
            took = time.monotonic() - began
            stop.cancel()
        if status == -signal.SIGKILL:
            return None
        if status:
            sys.exit(f"{words[0]}: status {status}")
        return took, int(self.read("peak")) * 1_024


def ask(bench, size):
    return replies(bench, "ask", size)


def ask_with_check(bench, size):
    return replies(bench, "ask --check-paths", size)


def replies(bench, command, size):
    measured = bench.measured(command)
    if measured and bench.read("output").count(b"# accept\n") != size:
        sys.exit(f"{command}: not every derivation has a builder")
    return measured


def sim(bench, size):
    """Leaves the history of the simulation, in which no command may be refused."""
    measured = bench.measured("sim", "script")
    if measured:
        entries, _, report = bench.read("output").partition(b"total ")
        keep_history(bench, b"nix-dispatch-history 1\n" + entries)
        if f"\nbuilt {size}\n".encode() not in report or b"refused" in entries:
            sys.exit("sim: the script doesn't build everything")
    return measured


def run(bench, size):
    """Leaves its history, where the simulation left none."""
    measured = bench.measured("run", "stand")
    if measured:
        history = bench.read("output")
        if history.count(b"\nbuilt ") != size:
            sys.exit("run: not everything is built")
        if not os.path.exists(bench.file("history")):
            keep_history(bench, history)
    return measured


def keep_history(bench, history):
    if len(history) <= INPUT_LIMIT:
        with open(bench.file("history"), "wb") as out:
            out.write(history)


def audit(bench, _size):
    measured = bench.measured("audit", "history")
    if measured:
        entries = bench.read("history").count(b"\n") - 1
        said = bench.read("output")
        if said != f"legal {entries}\n".encode():
            sys.exit(f"audit: {said!r}")
    return measured


COMMANDS = {
    "ask": ask,
    "ask --check-paths": ask_with_check,
    "sim": sim,
    "run": run,
    "audit": audit,
}


# The table


COLUMNS = (
    ("input", 19, str.ljust),
    ("size", 7, str.rjust),
    ("command", 17, str.ljust),
    ("seconds", 8, str.rjust),
    ("x", 5, str.rjust),
    ("peak MB", 8, str.rjust),
    ("x", 5, str.rjust),
    ("MB in", 6, str.rjust),
    ("MB out", 6, str.rjust),
)


class Table:
    """Prints lines, and keeps the last size that each input and command was measured at."""

    def __init__(self, markdown, limit):
        self.markdown = markdown
        self.limit = limit
        self.last = {}
        self.put([name for name, _, _ in COLUMNS])
        if markdown:
            self.put(["--:" if place is str.rjust else "---" for _, _, place in COLUMNS])

    def put(self, words):
        if self.markdown:
            print("| " + " | ".join(words) + " |")
        else:
            cells = (place(word, width) for word, (_, width, place) in zip(words, COLUMNS))
            print(" ".join(cells).rstrip())
        sys.stdout.flush()

    def line(self, name, size, command, measured):
        key = (name, command)
        times, more = self.growth(key, size, measured)
        self.last[key] = (size, measured)
        begun = [name, f"{size:,}", f"`{command}`" if self.markdown else command]
        figures = [f"{measured.seconds:.3f}", times, f"{measured.peak / 1e6:.1f}", more]
        self.put([*begun, *figures, f"{measured.bytes_in / 1e6:.1f}", f"{measured.bytes_out / 1e6:.1f}"])

    def stopped(self, name, size, command):
        begun = [name, f"{size:,}", f"`{command}`" if self.markdown else command]
        self.put([*begun, f"> {self.limit:g}", "", "", "", "", ""])

    def growth(self, key, size, new):
        """By how much seconds and memory grew for each doubling."""
        if key not in self.last:
            return "", ""
        before, old = self.last[key]
        doublings = math.log2(size / before)
        ratios = (new.seconds / old.seconds, new.peak / old.peak)
        return tuple(f"{ratio ** (1 / doublings):.2f}" for ratio in ratios)


def is_wanted(words, name, command):
    return all(word in f"{name}, {command}" for word in words)


def measure_size(bench, table, name, size, commands):
    """Puts a line for each of these commands; those that took no longer than the limit."""
    quick = []
    for command in commands:
        if command == "audit" and not os.path.exists(bench.file("history")):
            continue
        measured = COMMANDS[command](bench, size)
        if measured:
            table.line(name, size, command, measured)
            quick.append(command)
        else:
            table.stopped(name, size, command)
    return quick


def measure_input(bench, table, case, sizes, words):
    commands = [command for command in COMMANDS if is_wanted(words, case.name, command)]
    for size in sizes or case.sizes:
        if not commands:
            return
        bench.give(case.make(size))
        if os.path.exists(bench.file("history")):
            os.remove(bench.file("history"))
        if "audit" in commands and not {"sim", "run"} & set(commands):
            sim(bench, size) or run(bench, size)
        commands = measure_size(bench, table, case.name, size, commands)


def numbers(text):
    return tuple(int(word.replace("_", "")) for word in text.split(","))


def options():
    here = os.path.dirname(os.path.abspath(__file__))
    program = os.path.join(here, "..", "crates", "nix_dispatch", "out", "nix_dispatch")
    parser = argparse.ArgumentParser(description="A table of the built program's seconds and memory.")
    parser.add_argument("program", nargs="?", default=program)
    parser.add_argument("--only", metavar="WORD", action="append", default=[], help="lines with this word")
    parser.add_argument("--sizes", metavar="N,N,..", type=numbers, help="other numbers of derivations")
    parser.add_argument("--best", metavar="N", type=int, default=3, help="the fastest of N runs")
    parser.add_argument("--time-limit", metavar="SECONDS", type=float, default=60, help="of a run")
    parser.add_argument("--markdown", action="store_true", help="a table for a document")
    return parser.parse_args()


def main():
    chosen = options()
    table = Table(chosen.markdown, chosen.time_limit)
    with tempfile.TemporaryDirectory() as folder:
        bench = Bench(os.path.abspath(chosen.program), folder, chosen.best, chosen.time_limit)
        for case in INPUTS:
            measure_input(bench, table, case, chosen.sizes, chosen.only)


if __name__ == "__main__":
    main()
