#!/usr/bin/env python3
"""A driver of `nix-dispatch serve`: it builds the farm's example with a sleep for each build, as many at once as
the park has slots. What it would copy and build it only says.

    examples/serve/drive.py [JOURNAL]

With a journal it goes on from what that holds: leases that were begun are then taken up anew."""
import os
import queue
import subprocess
import sys
import threading
import time

TOP = os.path.join(os.path.dirname(os.path.abspath(__file__)), "..", "..")
PROGRAM = os.environ.get("NIX_DISPATCH", os.path.join(TOP, "crates/nix_dispatch/out/nix_dispatch"))
FARM = os.path.join(TOP, "examples/farm")


class Session:
    """A session, and the derivations that got a lease and aren't begun yet."""

    def __init__(self, journal):
        words = [PROGRAM, "serve", "--bundle", f"{FARM}/bundle", "--builders", f"@{FARM}/builders"]
        words += ["--extra", "aarch64-linux", "--features", "kvm,nixos-test"]
        if journal:
            words += ["--journal", journal, "--resume"]
        self.process = subprocess.Popen(words, stdin=subprocess.PIPE, stdout=subprocess.PIPE, text=True)
        self.chosen = []
        self.hear()

    def hear(self):
        """The lines of an answer, up to its line `ready`."""
        lines = []
        for line in self.process.stdout:
            words = line.split()
            if words == ["ready"]:
                return lines
            if words[0] == "chosen":
                self.chosen.append(int(words[1]))
            print(line, end="")
            lines.append(words)
        sys.exit(self.process.wait())  # it ended early, and has said why

    def ask(self, command):
        """What is answered to a command."""
        print(command, file=self.process.stdin, flush=True)
        return self.hear()

    def end(self):
        """The exit status: the end of the commands ends the session."""
        self.process.stdin.close()
        return self.process.wait()


def build(drv, job, ended):
    """What a transport does: it copies the paths of the job, builds, and says so at the end."""
    path, paths = job[4], job[5:]
    print(f"copying {len(paths)} paths for {path}", file=sys.stderr)
    time.sleep(0.1 + drv % 5 / 10)
    ended.put(drv)


def main():
    journal = sys.argv[1] if len(sys.argv) > 1 else None
    session = Session(journal)
    if journal:
        # Leases from before: the machine and what it lacks stand in their jobs.
        leased = [int(words[1]) for words in session.ask("report") if words[0] == "drv" and words[2] == "leased"]
        session.chosen = leased
    ended = queue.Queue()
    running = 0
    while session.chosen or running:
        if session.chosen:
            drv = session.chosen.pop(0)
            job = session.ask(f"job {drv}")[0]
            session.ask(f"start {drv}")  # refused where it was started before; then it is built once more
            threading.Thread(target=build, args=(drv, job, ended)).start()
            running += 1
        else:
            drv = ended.get()
            running -= 1
            session.ask(f"built {drv}")
    session.ask("report")
    return session.end()


if __name__ == "__main__":
    sys.exit(main())
