"""What the stand-ins of Nix's commands share: the world that they act in, which is a JSON text and a folder.

`FARM_WORLD` names the text, which `farm/tests/world.py` writes; the folder `state` beside it has what has come about: a
file in `valid` for each valid path, and lines in `calls` for each call of a stand-in, in `pings`, `copied` and `builds`
for what was done, and in `tries`, by which the next one knows which of the happenings it is. A happening is an object
with some of these members:

    says      what is said, a character for each byte
    status    the status at the end, 0 where it isn't there
    seconds   how long it takes
    waits     a file that it waits for, a minute at most
    kills     the number of a signal that the command ends itself by
    loses     paths that are valid no longer

Of several happenings the first is the first call's, and the last one stays.

A stand-in is started many times in a test, so it imports little: a JSON text without true, false and null is read as an
expression, and what is noted is one in each line.
"""

import fcntl
import os
import sys
import time


# The bytes of a file's NAR besides what the file has.
OF_NAR = 112


class World:
    """The world as it was written, and what has come about in it."""

    def __init__(self):
        file = os.environ["FARM_WORLD"]
        with open(file, encoding="ascii") as text:
            self.__dict__.update(eval(text.read(), {}))
        self.state = os.path.join(os.path.dirname(file), "state")

    def note(self, **call):
        """A line of `calls`."""
        self.append("calls", {"at": time.time(), "pid": os.getpid(), **call})

    def append(self, name, value):
        """A line of a file: a value as an expression."""
        with open(os.path.join(self.state, name), "a", encoding="ascii") as file:
            file.write(ascii(value) + "\n")

    def is_valid(self, path):
        return os.path.exists(self._mark(path))

    def has_files(self, path):
        """Whether there is something of a path, which may be valid where there is nothing."""
        return os.path.lexists(self.root + path)

    def modified(self):
        """The paths that aren't as they were registered."""
        try:
            with open(os.path.join(self.state, "modified"), encoding="ascii") as file:
                return file.read().split()
        except FileNotFoundError:
            return []

    def make_valid(self, path):
        """Has a path in the store, as a file."""
        file = self.root + path
        if not os.path.lexists(file):
            with open(file, "w", encoding="ascii") as text:
                text.write("made\n")
        with open(self._mark(path), "w", encoding="ascii"):
            pass

    def lose(self, path):
        for file in (self._mark(path), self.root + path):
            if os.path.lexists(file):
                os.unlink(file)

    def _mark(self, path):
        return os.path.join(self.state, "valid", os.path.basename(path))

    def happening(self, kind, *names):
        """The happening of this call: the one of the first of these names that has any."""
        known = getattr(self, kind, {})
        name = next((one for one in names if one in known), None)
        if name is None:
            return {}
        number = self._number(kind, name)
        return known[name][min(number, len(known[name]) - 1)]

    def _number(self, kind, name):
        """How many of these calls there were before."""
        with open(os.path.join(self.state, "tries"), "a+", encoding="ascii") as file:
            fcntl.flock(file, fcntl.LOCK_EX)
            file.seek(0)
            line = ascii([kind, name]) + "\n"
            number = sum(one == line for one in file)
            file.write(line)
            return number

    def happen(self, what, tell=None):
        """Does what happens, and answers the status. What is said goes to `tell`, or to standard error."""
        (tell or say)(what.get("says", ""))
        time.sleep(what.get("seconds", 0))
        left = 3000
        while "waits" in what and not os.path.exists(what["waits"]) and left > 0:
            time.sleep(0.1)
            left -= 1
        for path in what.get("loses", []):
            self.lose(path)
        for path in what.get("modifies", []):
            with open(os.path.join(self.state, "modified"), "a", encoding="ascii") as file:
                file.write(path + "\n")
        if "kills" in what:
            os.kill(os.getpid(), what["kills"])
        return what.get("status", 0)

    def ping(self, uri, tell=None):
        """A connection that is asked for."""
        self.append("pings", uri)
        return self.happen(self.happening("pings", uri), tell)

    def copy(self, uri, path):
        self.append("copied", [uri, path])

    def build(self, drv, builders, settings, tell=None):
        """A build as Nix does it: here, or by its hook on the one machine of the builders list; the status."""
        tell = tell or say
        if not self.is_valid(drv):
            tell(f"don't know how to build these paths:\n  {drv}\nerror: cannot build missing derivation '{drv}'\n")
            return 1
        outputs = self.drvs[drv]["outputs"].values()
        if all(self.is_valid(path) for path in outputs):
            return 0
        uri = plain_uri(builders.split()[0]) if builders.split() else "local"
        name = self.drvs[drv]["name"]
        tell(f"this derivation will be built:\n  {drv}\n")
        tell(f"building '{drv}'" + ("...\n" if uri == "local" else f" on '{uri}'...\n"))
        self.append("builds", ["begin", os.getpid(), name, uri, {**settings, "builders": builders}])
        status = self.happen(self.happening("builds", f"{name} on {uri}", name), tell)
        self.append("builds", ["end", os.getpid(), name, uri, status])
        for path in outputs if status == 0 else []:
            self.make_valid(path)
        return status

    def size(self, path):
        """The bytes of a path's NAR, as it was registered."""
        return self.sizes.get(path) or self.size_now(path)

    def size_now(self, path):
        """The bytes of the NAR of what lies there, a file; those of a short one where there is nothing."""
        try:
            length = os.path.getsize(self.root + path)
        except OSError:
            length = 8
        return OF_NAR + length + -length % 8

    def closure(self, paths):
        """The paths with all that they refer to, each behind what it refers to."""
        found, open_ones = [], set()

        def walk(path):
            if path in open_ones:
                return
            open_ones.add(path)
            for other in self.references(path):
                if other != path:
                    walk(other)
            found.append(path)

        for one in paths:
            walk(one)
        return found

    def references(self, path):
        if not self.is_valid(path):
            fail(f"error: path '{path}' is not valid")
        return self.paths.get(path, [])


def plain_uri(uri):
    """A store's URI without its keys."""
    plain, _, words = uri.partition("?")
    left = [word for word in words.split("&") if not word.startswith(("ssh-key=", "base64-ssh-public-host-key="))]
    return plain + ("?" + "&".join(left) if "&".join(left) else "")


def say(words):
    """Writes words on standard error, a byte for each character."""
    sys.stderr.buffer.write(words.encode("latin-1"))
    sys.stderr.flush()


def fail(words, status=1):
    say(words + "\n")
    raise SystemExit(status)


def option(words, name, default=None):
    """The word behind another one."""
    return words[words.index(name) + 1] if name in words else default


# Options of Nix that have a word of their own behind them, or two.
_WITH_ONE = {
    "--max-jobs", "--builders", "--store", "--from", "--to", "--timeout", "--max-silent-time", "--cores", "--add-root",
    "--expr", "--extra-experimental-features",
}
_WITH_TWO = {"--option"}


def plain_words(words):
    """The words that are no options and no values of options."""
    found, at = [], 0
    while at < len(words):
        if words[at] in _WITH_TWO:
            at += 3
        elif words[at] in _WITH_ONE:
            at += 2
        else:
            if not words[at].startswith("-"):
                found.append(words[at])
            at += 1
    return found
