"""A world for farm/build to act in: a store in a folder, derivations that Nix's stand-ins build, and a park.

`FARM` names the folder of the farm's commands, which is the one above this where it isn't set, and `FARM_PROGRAM` a
`nix-dispatch` to use in place of the stand-in.
"""

import ast
import glob
import hashlib
import json
import os
import select
import shutil
import signal
import subprocess
import sys
import tempfile
import threading
import time
import unittest
from typing import Any, Callable, Dict, List, Optional, Sequence, Tuple

HERE = os.path.dirname(os.path.abspath(__file__))
FARM = os.environ.get("FARM", os.path.dirname(HERE))
LETTERS = "0123456789abcdfghijklmnpqrsvwxyz"
# How long anything in a test may take, in seconds.
PATIENCE = 300.0
# The bytes of a file's NAR besides what the file has.
OF_NAR = 112
# Who parses a text: Python 3.11 refuses it where two threads do so at once.
PARSING = threading.Lock()


def store_path(name: str) -> str:
    """A store path for a name: the same one each time."""
    number = int.from_bytes(hashlib.sha256(name.encode()).digest()[:20], "big")
    return "/nix/store/" + "".join(LETTERS[number >> (5 * at) & 31] for at in range(32)) + "-" + name


def quoted(words: Sequence[str]) -> str:
    return ",".join(f'"{word}"' for word in words)


def read_all(descriptor: int) -> bytes:
    """What comes from a pipe or a terminal until it ends, or until nothing has come for as long as anything may take."""
    said = b""
    while select.select([descriptor], [], [], PATIENCE)[0]:
        try:
            part = os.read(descriptor, 65536)
        except OSError:  # a terminal that nobody writes to any more
            break
        if not part:
            break
        said += part
    os.close(descriptor)
    return said


class Ran:
    """What a command came to: its status, and what it wrote."""

    def __init__(self, status: int, out: bytes, err: bytes) -> None:
        self.status, self.out, self.err = status, out.decode("latin-1"), err.decode("latin-1")

    def __str__(self) -> str:
        return f"status {self.status}\n--- out\n{self.out}\n--- err\n{self.err}"


class World:
    """The folder has the store `local`, the text `world.json`, `state`, and what the runs make."""

    def __init__(self, case: unittest.TestCase) -> None:
        self.case = case
        self.folder = tempfile.mkdtemp(prefix="farm-test.")
        case.addCleanup(shutil.rmtree, self.folder, ignore_errors=True)
        self.started: List[subprocess.Popen] = []
        case.addCleanup(self.end)
        self.root = self.at("local")
        for place in ("local/nix/store", "state/valid", "bin", "tmp"):
            os.makedirs(self.at(place))
        self.script("bin/python3", f'exec "{sys.executable}" -S "$@"')
        self.settings = {
            "system": "x86_64-linux", "extra-platforms": "", "system-features": "", "max-jobs": "1", "builders": "",
            "substitute": "false",
        }
        self.drvs: Dict[str, Dict[str, Any]] = {}
        self.paths: Dict[str, List[str]] = {}
        # how long the NARs of sources are registered to be, where that isn't what lies there
        self.sizes: Dict[str, int] = {}
        self.happenings: Dict[str, Dict[str, List[Dict[str, Any]]]] = {"builds": {}, "copies": {}, "pings": {}}
        self.substitutes: Dict[str, str] = {}
        self.dispatch: Dict[str, Any] = {}
        self.builders: List[str] = []
        self.environment: Dict[str, str] = {}

    def at(self, name: str) -> str:
        return os.path.join(self.folder, name)

    def script(self, name: str, words: str) -> str:
        """A script of the shell: its file."""
        with open(self.at(name), "w", encoding="utf-8") as file:
            file.write(f"#!/bin/sh\n{words}\n")
        os.chmod(self.at(name), 0o755)
        return self.at(name)

    # What there is.

    def source(self, name: str, refs: Sequence[str] = (), size: int = 0) -> str:
        """A path that is valid, whose NAR has so many bytes where that is said."""
        path = store_path(name)
        self.paths[path] = list(refs)
        self.make_valid(path, "a source\n")
        if size:
            os.truncate(self.root + path, size - OF_NAR)
            self.sizes[path] = size
        return path

    def drv(self, name: str, inputs: Sequence[str] = (), sources: Sequence[str] = (), outputs: Sequence[str] = ("out",),
            system: str = "x86_64-linux", features: str = "", refs: Optional[Dict[str, List[str]]] = None) -> str:
        """A derivation that needs all outputs of these inputs. `refs` are the references of its own ones."""
        made = {one: store_path(name if one == "out" else f"{name}-{one}") for one in sorted(outputs)}
        tell = "".join(f'("{one}",[{quoted(sorted(self.drvs[one]["outputs"]))}]),' for one in sorted(inputs))
        named = ",".join(f'("{one}","{path}","","")' for one, path in made.items())
        wants = f',("requiredSystemFeatures","{features}")' if features else ""
        env = f'("name","{name}"){wants}'
        text = f'Derive([{named}],[{tell[:-1]}],[{quoted(sorted(sources))}],"{system}","/bin/sh",[],[{env}])'
        path = store_path(f"{name}.drv")
        self.drvs[path] = {"name": name, "outputs": made}
        self.paths[path] = [*sources, *inputs]
        for one, output in made.items():
            self.paths[output] = sorted((refs or {}).get(one, []))
        self.make_valid(path, text)
        return path

    def output(self, drv: str, name: str = "out") -> str:
        return self.drvs[drv]["outputs"][name]

    def make_valid(self, path: str, text: str = "made\n") -> None:
        with open(self.root + path, "w", encoding="latin-1") as file:
            file.write(text)
        with open(self.at("state/valid/" + os.path.basename(path)), "w", encoding="ascii"):
            pass

    def is_valid(self, path: str) -> bool:
        return os.path.exists(self.at("state/valid/" + os.path.basename(path)))

    def damage(self, path: str, how: str) -> None:
        """Has the files of a valid path be gone, or be others than they were registered, or shorter ones."""
        if how == "gone":
            os.unlink(self.root + path)
            return
        if how == "shorter":
            os.truncate(self.root + path, 0)
        with open(self.at("state/modified"), "a", encoding="ascii") as file:
            file.write(path + "\n")

    def lose(self, path: str) -> None:
        os.unlink(self.at("state/valid/" + os.path.basename(path)))
        os.unlink(self.root + path)

    def machine(self, name: str, jobs: int = 1, systems: str = "x86_64-linux", speed: int = 1, features: str = "-",
                mandatory: str = "-", ssh: bool = False) -> str:
        """A machine of the builders list; its URI."""
        uri = f"ssh://{name}.example.org" if ssh else self.at(name)
        self.builders.append(f"{uri} {systems} - {jobs} {speed} {features} {mandatory} -")
        return uri

    def happens(self, kind: str, name: str, *happenings: Dict[str, Any]) -> None:
        """What happens at the builds of a derivation's name, or `NAME on URI`, or the copies to or pings of a URI."""
        self.happenings[kind][name] = list(happenings)

    # What is done in it.

    def save(self) -> None:
        with open(self.at("builders"), "w", encoding="latin-1") as file:
            file.write("".join(line + "\n" for line in self.builders))
        told = {
            name: getattr(self, name) for name in (
                "root", "settings", "drvs", "paths", "sizes", "substitutes", "dispatch"
            )
        }
        with open(self.at("world.json"), "w", encoding="ascii") as file:
            json.dump({**told, **self.happenings}, file)

    def env(self) -> Dict[str, str]:
        given = {
            "PATH": os.pathsep.join([self.at("bin"), os.path.join(HERE, "stand_ins"), "/usr/bin", "/bin"]),
            "FARM_WORLD": self.at("world.json"), "NIX_REMOTE": self.root, "HOME": self.folder, "TMPDIR": self.at("tmp"),
        }
        program = os.environ.get("FARM_PROGRAM")
        return {**given, **({"NIX_DISPATCH": program} if program else {}), **self.environment}

    def command(self, words: Sequence[Any], out: Any = "out", jobs: Optional[int] = 1) -> List[Any]:
        """`farm/build` into a folder, with the builders list of this world. Words that aren't said otherwise: what is cut
        short is lost at once."""
        self.save()
        own = [] if jobs is None else ["--jobs", str(jobs)]
        place = [] if out is None else ["-o", os.path.join(os.fsencode(self.folder), os.fsencode(out))]
        return [os.path.join(FARM, "build"), *place, "--builders", "@" + self.at("builders"), *own, "--reconnect", "0", *words]

    def build(self, *words: Any, **given: Any) -> Ran:
        return self.call(self.command(words, **given))

    def start(self, command: Sequence[Any], stdout: Any, stderr: Any) -> subprocess.Popen:
        """Starts a command as the leader of a process group. Signals have their defaults there, also behind nohup."""
        words = ["env", "--default-signal=HUP,INT,TERM", *command]
        one = subprocess.Popen(
            words, env=self.env(), stdin=subprocess.DEVNULL, stdout=stdout, stderr=stderr, cwd=self.folder,
            start_new_session=True,
        )
        self.started.append(one)
        return one

    def call(self, command: Sequence[Any]) -> Ran:
        """Runs a command to its end."""
        self.save()
        one = self.start(command, subprocess.PIPE, subprocess.PIPE)
        out, err = one.communicate(timeout=PATIENCE)
        return Ran(one.returncode, out, err)

    def begin(self, *words: Any, **given: Any) -> subprocess.Popen:
        """farm/build in the background; its words go to files of the folder."""
        with open(self.at("begun.out"), "wb") as out, open(self.at("begun.err"), "wb") as err:
            return self.start(self.command(words, **given), out, err)

    def wait(self, one: subprocess.Popen) -> Ran:
        status = one.wait(PATIENCE)
        return Ran(status, self.bytes("begun.out"), self.bytes("begun.err"))

    def kill(self, one: subprocess.Popen) -> None:
        """Kills all that a command has started, and that itself, at once."""
        for _ in range(2):
            for number in [*self.processes(), one.pid]:
                try:
                    os.kill(number, signal.SIGKILL)
                except ProcessLookupError:
                    pass
        one.wait(PATIENCE)

    def processes(self, words: str = "") -> List[int]:
        """The processes of this world that have these words, but those of the stand-ins' own children."""
        found = []
        mark = b"FARM_WORLD=" + os.fsencode(self.at("world.json")) + b"\0"
        for place in glob.glob("/proc/[0-9]*"):
            try:
                with open(place + "/environ", "rb") as file:
                    is_own = mark in file.read() + b"\0"
                with open(place + "/cmdline", "rb") as file:
                    line = file.read().replace(b"\0", b" ")
            except OSError:
                continue
            if is_own and words.encode() in line:
                found.append(int(os.path.basename(place)))
        return found

    def soon(self, what: Callable[[], Any], told: str = "it never came") -> Any:
        """Waits until something holds."""
        end, beat = time.monotonic() + PATIENCE, 0.01
        while time.monotonic() < end:
            found = what()
            if found:
                return found
            time.sleep(beat)
            beat = min(0.1, beat * 1.5)
        self.case.fail(f"{told}\n{self.bytes('begun.err').decode('latin-1')}")

    def end(self) -> None:
        """Ends what still goes on, and takes away what killed runs have left elsewhere."""
        for one in self.started:
            if one.poll() is None:
                self.kill(one)
        for number in self.processes():
            try:
                os.kill(number, signal.SIGKILL)
            except ProcessLookupError:
                pass
        for link in glob.glob(glob.escape(self.folder) + "/*/.agents"):
            shutil.rmtree(os.readlink(link), ignore_errors=True)

    # What has come of it.

    def bytes(self, name: str) -> bytes:
        try:
            with open(self.at(name), "rb") as file:
                return file.read()
        except FileNotFoundError:
            return b""

    def lines(self, name: str) -> List[str]:
        return self.bytes(name).decode("latin-1").splitlines()

    def noted(self, name: str) -> List[Any]:
        """What the stand-ins have noted in a file of `state`."""
        with PARSING:
            return [ast.literal_eval(line) for line in self.lines("state/" + name)]

    def calls(self, command: str, *words: str) -> List[List[str]]:
        """The words of each call of a stand-in that has all of these words."""
        told = self.noted("calls")
        return [one["argv"] for one in told if one["command"] == command and all(word in one["argv"] for word in words)]

    def builds(self, how: str = "begin") -> List[Tuple[str, str]]:
        """The names and the URIs of the builds that began, or ended, in their order."""
        return [(one[2], self.plain(one[3])) for one in self.noted("builds") if one[0] == how]

    def settings_of(self, name: str) -> Dict[str, str]:
        """Nix's settings of the last build of a name."""
        return [one[4] for one in self.noted("builds") if one[0] == "begin" and one[2] == name][-1]

    def built(self) -> List[str]:
        return [name for name, _ in self.builds()]

    def plain(self, uri: str) -> str:
        """The name of a machine by its URI."""
        return os.path.basename(uri).replace(".example.org", "").split("?")[0]

    def pings(self) -> List[str]:
        """The machines that were asked for a connection, each time."""
        return [self.plain(uri) for uri in self.noted("pings")]

    def copied(self) -> List[Tuple[str, str]]:
        """The machine and the path of each copy."""
        return [(self.plain(uri), path) for uri, path in self.noted("copied")]

    def history(self, number: int = 1, out: str = "out") -> List[str]:
        return self.lines(f"{out}/history.{number}")[1:]

    def bundle(self, number: int = 1, out: str = "out") -> List[str]:
        """The names of the derivations of a round, in their order."""
        return [self.name(line.split(" ")[0]) for line in self.lines(f"{out}/bundle.{number}")]

    def name(self, path: str) -> str:
        return path[44:].replace(".drv", "")

    def events(self, out: str = "out") -> List[List[str]]:
        """The words of each event, but its time."""
        return [line.split(" ")[1:] for line in self.lines(f"{out}/events")]

    def counts(self, out: str = "out") -> Dict[str, int]:
        kinds = ("total", "waiting", "leased", "built", "failed", "cancelled")
        told = [line.split() for line in self.lines(f"{out}/report")]
        return {one[0]: int(one[1]) for one in told if one[0] in kinds}

    def report(self, out: str = "out") -> Any:
        """What report.json says, whose derivations are an object by their names."""
        said = json.loads(self.bytes(f"{out}/report.json").decode("ascii"))
        said["by_name"] = {self.name(one["derivation"]): one for one in said["derivations"]}
        return said


class FarmCase(unittest.TestCase):
    """A case with a world of its own."""

    def setUp(self) -> None:
        self.world = World(self)

    def ended(self, ran: Ran, status: int) -> None:
        self.assertEqual(ran.status, status, str(ran))

    def says(self, ran: Ran, *patterns: str) -> None:
        """That standard error has these patterns."""
        for pattern in patterns:
            self.assertRegex(ran.err, pattern)

    def is_over(self, out: str = "out") -> None:
        """That nothing is left of a run but its folder's files."""
        for name in (".unfinished", "gcroots", ".agents"):
            self.assertFalse(os.path.lexists(self.world.at(f"{out}/{name}")), name)
        self.world.soon(lambda: not self.world.processes(), "something goes on")
