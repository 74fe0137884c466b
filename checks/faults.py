#!/usr/bin/env python3
"""How a run ends, and why: the table of a run's faults and failures in docs/DESIGN.md, cell by cell, by runs of the
built program.

References that a build may not have, one kind after another, over the bundled example and over 64 slots: each has the
entry `failed D references`, its line in the report and no fault of the run; references that a build may have, in
whatever number, end in `built`. A thread that isn't started is told as that, with status 5; memory that is refused as
that, where the run was stopped for it. Each history is legal.

    python3 checks/faults.py

It needs the built program, or one that NIX_DISPATCH names, Python 3 and a C compiler.
"""

import os
import subprocess
import sys
import tempfile

HERE = os.path.dirname(os.path.abspath(__file__))
ROOT = os.path.dirname(HERE)
PROGRAM = os.environ.get("NIX_DISPATCH") or os.path.join(ROOT, "crates", "nix_dispatch", "out", "nix_dispatch")
FARM = os.path.join(ROOT, "examples", "farm")
# the local machine makes the disk image that no builder can
PARK = ["--builders", f"@{FARM}/builders", "--extra", "aarch64-linux", "--features", "kvm,nixos-test", "--keep-going"]
STRANGER = "/nix/store/00000000000000000000000000000000-stranger"
sys.path.insert(0, os.path.join(ROOT, "bench"))
sys.dont_write_bytecode = True
import bench  # noqa: E402


def program(words, bundle, **surroundings):
    with open(bundle, "rb") as stdin:
        env = {**os.environ, **surroundings}
        return subprocess.run([PROGRAM, *words], stdin=stdin, capture_output=True, check=False, env=env)


def written(folder, name, text):
    path = os.path.join(folder, name)
    with open(path, "w", encoding="ascii") as out:
        out.write(text)
    return path


def is_legal(park, bundle, folder, history):
    """Whether `audit` calls these lines of a history legal."""
    path = written(folder, "history", history)
    verdict = program(["audit", *park, "--history", path], bundle).stdout.decode()
    return verdict == f"legal {len(history.splitlines()) - 1}\n"


def divided(text):
    """The lines of the history, and those of the report behind them."""
    lines = text.splitlines()
    first = next((at for at, line in enumerate(lines) if line.startswith("total ")), len(lines))
    return lines[:first], lines[first:]


def ran(folder, park, bundle, rules):
    """The entries and the report of a run without a fault, whose stand-ins follow these rules."""
    stand = written(folder, "stand", "".join(f"{rule}\n" for rule in rules))
    ended = program(["run", *park, "--stand", stand, "--report"], bundle)
    if ended.stderr:
        sys.exit(f"{rules}: status {ended.returncode}, {ended.stderr.decode()}")
    entries, report = divided(ended.stdout.decode())
    if not is_legal(park, bundle, folder, "".join(f"{line}\n" for line in entries)):
        sys.exit(f"{rules}: the history isn't legal")
    return ended.returncode, entries, report


def outputs_of(bundle):
    """The first output path of each derivation of a bundle."""
    with open(bundle, encoding="latin-1") as file:
        return [line.split('"')[3] for line in file]


def judge(name, folder, park, bundle, lists, outputs):
    """One kind of references that a build of derivation 0, which has one output and no input, may not have."""
    status, entries, report = ran(folder, park, bundle, [" ".join(["built 0", *lists])])
    told = [line for line in entries if line.split()[1] == "0" and line.split()[0] in ("built", "failed")]
    if told != ["failed 0 references"]:
        sys.exit(f"{name}: {told}")
    if status != 1 or not any(line.startswith("drv 0 failed ") for line in report):
        sys.exit(f"{name}: status {status}, {report}")
    if sum(line.startswith("failed ") for line in entries) != 1:
        sys.exit(f"{name}: another build failed too")
    return len(outputs)


def references(folder):
    """Wrong and right references over the bundled example."""
    bundle = os.path.join(FARM, "bundle")
    outputs = outputs_of(bundle)
    kinds = {
        "a path that nothing refers to": ["o", STRANGER],
        "the output of another derivation": ["o", outputs[18]],
        "its own output and a path too many": ["o", outputs[0], STRANGER],
        "a list too many": ["o", "o"],
        "no list": [],
    }
    for name, lists in kinds.items():
        judge(name, folder, PARK, bundle, lists, outputs)
    for lists in (["o"], ["o", outputs[0]]):
        status, entries, _ = ran(folder, PARK, bundle, [" ".join(["built 0", *lists])])
        if " ".join(["built 0", *lists]) not in entries or status != 0:
            sys.exit(f"right references, {lists}: status {status}")
    print(f"references: {len(kinds)} kinds of wrong ones, each told as such, and two of right ones")


def side_by_side(folder):
    """Wrong references of many builds at once, on 64 slots."""
    size = 512
    bundle = written(folder, "bundle", bench.plain(size))
    outputs = outputs_of(bundle)
    park = ["--builders", "m - - 64", "--jobs", "0", "--keep-going"]
    wrong = {}
    for drv in range(size):
        if drv % 2:
            wrong[drv] = [["o", STRANGER], ["o", outputs[drv - 1]], ["o", "o"], []][drv // 2 % 4]
    rules = [" ".join([f"built {drv}", *lists]) for drv, lists in wrong.items()]
    status, entries, report = ran(folder, park, bundle, rules)
    failed = {line for line in entries if line.startswith("failed ")}
    if failed != {f"failed {drv} references" for drv in wrong} or status != 1:
        sys.exit(f"64 slots: status {status}, {len(failed)} failures for {len(wrong)}")
    if f"failed {len(wrong)}" not in report or f"built {size - len(wrong)}" not in report:
        sys.exit(f"64 slots: {report[:8]}")
    print(f"64 slots: {len(wrong)} of {size} builds with wrong references, each told as such, and no other")


def refuse_thread(folder, library, park, bundle, number, words):
    """A run with these words more, of which this thread is refused."""
    ended = program(["run", *park, *words], bundle, LD_PRELOAD=library, REFUSE_THREAD=str(number))
    history = ended.stdout.decode()
    if ended.returncode != 5 or ended.stderr.decode() != "nix-dispatch: thread not started\n":
        sys.exit(f"thread {number}: status {ended.returncode}, {ended.stderr.decode()}")
    if "\nstop\n" not in history or not is_legal(park, bundle, folder, history):
        sys.exit(f"thread {number}: its history has no stop or isn't legal")


def threads(folder):
    """A thread that the system refuses: the first of a worker, later ones and the last. With a journal the first thread
    is the scribe's."""
    library = os.path.join(folder, "refuse.so")
    subprocess.run(["cc", "-shared", "-fPIC", "-O1", "-o", library, os.path.join(HERE, "refuse.c"), "-ldl"], check=True)
    bundle = written(folder, "bundle", bench.plain(200))
    park = ["--builders", "m - - 8", "--jobs", "0"]
    for number in (1, 2, 5, 8):
        refuse_thread(folder, library, park, bundle, number, [])
        refuse_thread(folder, library, park, bundle, number + 1, ["--journal", os.path.join(folder, f"journal-{number}")])
    print("threads: four refused ones, without a journal and with one, each told as such, with a stop in a legal history")
    return library


def memory(folder, library):
    """Each allocation refused in turn: a run that was stopped for it says so, or that it was the one of a thread."""
    bundle = written(folder, "bundle", bench.plain(3))
    park = ["--builders", "m - - 2", "--jobs", "0"]
    stopped = 0
    for number in range(1, 400):
        ended = program(["run", *park], bundle, LD_PRELOAD=library, REFUSE=str(number))
        history = ended.stdout.decode()
        if "\nstop\n" in history:
            told = ended.stderr.decode()
            stopped += told == "nix-dispatch: out of memory\n"
            if ended.returncode != 5 or told not in ("nix-dispatch: out of memory\n", "nix-dispatch: thread not started\n"):
                sys.exit(f"allocation {number}: status {ended.returncode}, {ended.stderr.decode()}")
        elif history and ended.returncode not in (0, 1):
            sys.exit(f"allocation {number}: status {ended.returncode} and no stop: {ended.stderr.decode()}")
        if history and not is_legal(park, bundle, folder, history):
            sys.exit(f"allocation {number}: the history isn't legal")
    if not stopped:
        sys.exit("no run was stopped for want of memory")
    print(f"memory: {stopped} runs stopped for want of it, each told as such; without a stop there is no fault")


def main():
    with tempfile.TemporaryDirectory() as folder:
        references(folder)
        side_by_side(folder)
        memory(folder, threads(folder))


if __name__ == "__main__":
    main()
