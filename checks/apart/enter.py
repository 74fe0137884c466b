#!/usr/bin/env python3
"""Runs a command in the namespaces of a process:  enter.py PROCESS COMMAND ..

nsenter does so too, but stops itself where its command is stopped, and stays so where the command goes on by itself. The
status is the command's as a shell has it.
"""

import ctypes
import os
import sys


def enter(process: str) -> None:
    """Joins the network, mount, process and name namespaces of a process; OSError where it is gone, or refuses."""
    libc = ctypes.CDLL(None, use_errno=True)
    # all are opened before the first is joined, in which the process has another number
    found = [os.open(f"/proc/{process}/ns/{kind}", os.O_RDONLY | os.O_CLOEXEC) for kind in ("net", "uts", "pid", "mnt")]
    for one in found:
        if libc.setns(one, 0) != 0:
            error = ctypes.get_errno()
            raise OSError(error, os.strerror(error))


def main() -> int:
    """Enters, and waits for the command."""
    try:
        enter(sys.argv[1])
    except OSError as error:
        print(f"enter: process {sys.argv[1]}: {error.strerror}", file=sys.stderr)
        return 126
    child = os.fork()
    if child == 0:
        try:
            os.execvp(sys.argv[2], sys.argv[2:])
        finally:
            os._exit(127)
    code = os.waitstatus_to_exitcode(os.waitpid(child, 0)[1])
    return 128 - code if code < 0 else code


if __name__ == "__main__":
    sys.exit(main())
