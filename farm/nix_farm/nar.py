"""How long the NAR of a path is, by what lies there.

A NAR is made of strings: each is its length in 8 bytes, its bytes, and zeros up to a multiple of 8.
"""

import os
import stat


def _string(length: int) -> int:
    return 8 + length + -length % 8


def _words(*words: str) -> int:
    return sum(_string(len(os.fsencode(word))) for word in words)


_MAGIC = _words("nix-archive-1")
_NODE = _words("(", "type", ")")
_EXECUTABLE = _words("executable", "")
_ENTRY = _words("entry", "(", "name", "node", ")")


def nar_size(file: str) -> int:
    """The bytes of the NAR of a file, a link or a folder; OSError where it can't be read."""
    return _MAGIC + _node(file, os.lstat(file))


def _node(file: str, found: os.stat_result) -> int:
    if stat.S_ISLNK(found.st_mode):
        return _NODE + _words("symlink", "target", os.readlink(file))
    if stat.S_ISDIR(found.st_mode):
        with os.scandir(file) as entries:
            below = [(one.path, one.name, one.stat(follow_symlinks=False)) for one in entries]
        return _NODE + _words("directory") + sum(_ENTRY + _words(name) + _node(path, at) for path, name, at in below)
    executable = _EXECUTABLE if found.st_mode & stat.S_IXUSR else 0
    return _NODE + _words("regular", "contents") + executable + _string(found.st_size)
