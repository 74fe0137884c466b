"""Makes a root without /lib64, as NixOS has it: loader, libraries, Nix and Python lie in its store.

    python3 checks/install/root.py ROOT

ROOT is an empty folder. Its /bin has a static busybox alone, by the names of the tools that are named below. This machine's
loader and libraries come into its store, and copies of this machine's Nix and Python that name that loader. Printed are the
folders of the two, between blanks, as ROOT sees them. A loader that Nix has built finds libraries beside itself; this
machine's looks in folders for which it was built, and there are links to the store's in ROOT.
"""

import glob
import os
import re
import shutil
import struct
import subprocess
import sys
import tempfile
from typing import List, Set

TOOLS = "sh cat cp dd dirname env head ls mkdir mv od readlink rm sed sleep sort".split()
FILES = {
    "/etc/nix/nix.conf": "build-users-group =\nsandbox = false\nsubstitute = false\nextra-platforms = i686-linux\n",
    "/etc/passwd": "root:x:0:0:root:/root:/bin/sh\n",
    "/etc/group": "root:x:0:\n",
}
_INTERPRETER = 3


def libraries(*files: str) -> Set[str]:
    """The files of the libraries that these need, with the loader."""
    said = subprocess.run(["ldd", *files], stdout=subprocess.PIPE, stderr=subprocess.DEVNULL, text=True).stdout
    return set(re.findall(r"(?:=> |^\t)(/\S+) \(0x", said, re.MULTILINE))


def name_loader(file: str, loader: str) -> None:
    """Has an ELF file of 64 bits name another loader, which is put behind all that it has."""
    with open(file, "r+b") as one:
        text = one.read()
        at, = struct.unpack_from("<Q", text, 32)
        size, count = struct.unpack_from("<HH", text, 54)
        for header in range(at, at + size * count, size):
            if struct.unpack_from("<I", text, header)[0] == _INTERPRETER:
                path = loader.encode() + b"\0"
                one.write(path)
                one.seek(header + 8)
                one.write(struct.pack("<Q", len(text)))
                one.seek(header + 32)
                one.write(struct.pack("<QQ", len(path), len(path)))
                return
    raise SystemExit(f"{file} names no loader")


def add(root: str, folder: str) -> str:
    """Puts a folder into the root's store: its path there."""
    words, env = ["nix-store", "--add", folder], {**os.environ, "NIX_REMOTE": root}
    return subprocess.run(words, env=env, stdout=subprocess.PIPE, text=True, check=True).stdout.strip()


def copy_python(python: str, to: str) -> List[str]:
    """Copies an interpreter and its own modules: the files that need libraries."""
    asked = "import os, sys, sysconfig; print(os.path.realpath(sys.executable), sysconfig.get_path('stdlib'))"
    file, modules = subprocess.run([python, "-c", asked], stdout=subprocess.PIPE, text=True, check=True).stdout.split()
    os.makedirs(f"{to}/bin")
    shutil.copy(file, f"{to}/bin/python3")
    left_out = shutil.ignore_patterns("site-packages", "dist-packages", "test", "tests", "__pycache__", "config-*", "*.a")
    shutil.copytree(modules, f"{to}/lib/{os.path.basename(modules)}", ignore=left_out)
    return [f"{to}/bin/python3", *glob.glob(f"{to}/lib/*/lib-dynload/*.so")]


def copy_nix(to: str) -> str:
    """Copies Nix: the file that its commands are."""
    nix = os.path.realpath(shutil.which("nix-store") or "")
    os.makedirs(f"{to}/bin")
    shutil.copy(nix, f"{to}/bin/nix")
    for name in ("nix-store", "nix-instantiate", "nix-daemon", "nix-env"):
        os.symlink("nix", f"{to}/bin/{name}")
    return f"{to}/bin/nix"


def link(root: str, name: str, target: str) -> None:
    """Makes a link in the root, unless there is something of its name."""
    os.makedirs(root + os.path.dirname(name), exist_ok=True)
    if not os.path.lexists(root + name):
        os.symlink(target, root + name)


def fill(root: str) -> None:
    """Puts into the root what doesn't come from a store."""
    for folder in ("bin", "dev", "proc", "tmp", "etc/nix", "root"):
        os.makedirs(f"{root}/{folder}")
    shutil.copy(shutil.which("busybox") or "", f"{root}/bin/busybox")
    for tool in TOOLS:
        os.symlink("busybox", f"{root}/bin/{tool}")
    for name, text in FILES.items():
        with open(root + name, "w", encoding="ascii") as file:
            file.write(text)


def main(root: str) -> None:
    fill(root)
    with tempfile.TemporaryDirectory() as work:
        python = copy_python("/usr/bin/python3" if os.path.exists("/usr/bin/python3") else "python3", f"{work}/python")
        nix = copy_nix(f"{work}/nix")
        os.makedirs(f"{work}/glibc/lib")
        needed = libraries(nix, *python)
        for file in needed:
            shutil.copy(file, f"{work}/glibc/lib")
        home = add(root, f"{work}/glibc")
        loader = next(os.path.basename(file) for file in needed if os.path.basename(file).startswith("ld-"))
        for file in (nix, python[0]):
            name_loader(file, f"{home}/lib/{loader}")
        for folder in {os.path.dirname(file) for file in needed} - {"/lib64"}:
            link(root, folder, f"{home}/lib")
        nix_home, python_home = add(root, f"{work}/nix"), add(root, f"{work}/python")
        # Debian's Nix calls its build hook by this name
        link(root, "/usr/libexec/nix/build-remote", f"{nix_home}/bin/nix")
        print(nix_home, python_home)


if __name__ == "__main__":
    main(os.path.abspath(sys.argv[1]))
