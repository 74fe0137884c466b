"""The command nix-dispatch: which words go to a script of the farm, and by what it runs the program."""

import os
import shutil
import struct
import subprocess
import sys
import tempfile
import unittest
from typing import Dict

from tests.world import FARM

PROGRAM = """case $1 in
  --version) echo nix-dispatch 7.8.9 ;;
  help | --help) echo "Commands: path" ;;
  *) echo "program: $*"; exit 6 ;;
esac
"""
SCRIPT = '''#!/usr/bin/env python3
"""Does what {name} is for.

    nix-dispatch {name} WORD ..
"""
import os
import sys

print("{name}:", *sys.argv[1:], os.environ["NIX_DISPATCH"])
sys.exit(4)
'''


def elf_naming(loader: str) -> bytes:
    """An ELF file of 64 bits with two headers behind other bytes, of which the second one names a loader."""
    name = loader.encode() + b"\0"
    start, at = 200, 333
    head = b"\x7fELF\2\1\1".ljust(32, b"\0") + struct.pack("<Q", start)
    head = head.ljust(54, b"\0") + struct.pack("<HH", 60, 2)
    first = struct.pack("<IIQQQQQQ", 6, 4, 0, 0, 0, 8, 8, 8).ljust(60, b"\0")
    second = struct.pack("<IIQQQQQQ", 3, 4, at, 0, 0, len(name), len(name), 1).ljust(60, b"\0")
    return (head.ljust(start, b"\0") + first + second).ljust(at, b"\0") + name


class Command(unittest.TestCase):
    """It stands in a tree as ./install lays it out, with a program and scripts of its own."""

    def setUp(self) -> None:
        self.folder = os.path.realpath(tempfile.mkdtemp(prefix="farm-test."))
        self.addCleanup(shutil.rmtree, self.folder)
        for place in ("top/farm/bin", "bin"):
            os.makedirs(self.at(place))
        self.command = shutil.copy(os.path.join(FARM, "bin", "nix-dispatch"), self.at("top/farm/bin"))
        self.put("top/program", "#!/bin/sh\n" + PROGRAM)
        self.put("bin/python3", f'#!/bin/sh\nexec "{sys.executable}" -S "$@"\n')
        for name in ("build", "status"):
            self.put(f"top/farm/{name}", SCRIPT.format(name=name))

    def at(self, name: str) -> str:
        return os.path.join(self.folder, name)

    def put(self, name: str, text: "str | bytes") -> str:
        with open(self.at(name), "wb") as file:
            file.write(text if isinstance(text, bytes) else text.encode())
        os.chmod(self.at(name), 0o755)
        return self.at(name)

    def run_it(self, *words: str, command: str = "", **more: str) -> "subprocess.CompletedProcess[str]":
        env: Dict[str, str] = {"PATH": self.at("bin") + ":/usr/bin:/bin", **more}
        return subprocess.run([command or self.command, *words], env=env, capture_output=True, text=True, check=False)

    def says(self, ran: "subprocess.CompletedProcess[str]", status: int, out: str, error: str = "") -> None:
        self.assertEqual((ran.returncode, ran.stdout, ran.stderr), (status, out, error))

    def test_the_farm_s_commands(self) -> None:
        self.says(self.run_it("build", "-o", "a b"), 4, f"build: -o a b {self.command}\n")
        self.says(self.run_it("help", "status"), 4, f"status: --help {self.command}\n")

    def test_a_program_that_is_named_stays(self) -> None:
        self.says(self.run_it("status", "x", NIX_DISPATCH="/other"), 4, "status: x /other\n")

    def test_a_command_that_the_farm_lacks(self) -> None:
        self.says(self.run_it("control", "x"), 2, "", "nix-dispatch: this version has no control\n")

    def test_the_program_s_commands(self) -> None:
        self.says(self.run_it("ask", "a  b", ""), 6, "program: ask a  b \n")
        self.says(self.run_it("help", "ask"), 0, "Commands: path\n")

    def test_help_has_both(self) -> None:
        for word in ("help", "--help"):
            ran = self.run_it(word)
            self.assertEqual((ran.returncode, ran.stderr), (0, ""))
            self.assertEqual(ran.stdout.splitlines()[0], "Commands: path")
            self.assertIn("\n  build    Does what build is for\n  status   Does what status is for\n", ran.stdout)
            self.assertNotIn("watch", ran.stdout)

    def test_without_a_word(self) -> None:
        ran = self.run_it()
        self.assertEqual((ran.returncode, ran.stdout), (6, "program: \n"))
        self.assertIn("  build    Does what build is for\n", ran.stderr)

    def test_version(self) -> None:
        self.says(self.run_it("--version"), 0, "nix-dispatch 7.8.9\n")
        self.put("top/release", "commit 0123\nlogic 4567\n")
        self.says(self.run_it("--version"), 0, "nix-dispatch 7.8.9\ncommit 0123\nlogic 4567\n")

    def test_a_link_to_it(self) -> None:
        os.symlink("../top/farm/bin/nix-dispatch", self.at("bin/inner"))
        os.symlink("inner", self.at("bin/nix-dispatch"))
        self.says(self.run_it("build", command=self.at("bin/nix-dispatch")), 4, f"build: {self.command}\n")

    def test_no_program(self) -> None:
        os.unlink(self.at("top/program"))
        place = self.at("top/crates/nix_dispatch/out/nix_dispatch")
        self.says(self.run_it("ask"), 127, "", f"nix-dispatch: there is no program {place}: ./build makes it\n")

    def test_the_program_of_the_repository(self) -> None:
        os.makedirs(self.at("top/crates/nix_dispatch/out"))
        os.rename(self.at("top/program"), self.at("top/crates/nix_dispatch/out/nix_dispatch"))
        self.says(self.run_it("ask"), 6, "program: ask\n")

    def not_by_itself(self) -> str:
        """Has the program run by a loader alone; the loader."""
        self.put("top/program", "#!/nowhere/there\n" + PROGRAM)
        return self.put("loader", '#!/bin/sh\nexec sh "$@"\n')

    def test_the_loader_that_nix_store_names(self) -> None:
        loader = self.not_by_itself()
        self.put("bin/nix-store", elf_naming(loader))
        self.says(self.run_it("ask", "a  b"), 6, "program: ask a  b\n")
        self.says(self.run_it("--version"), 0, "nix-dispatch 7.8.9\n")

    def test_a_nix_store_that_is_a_script(self) -> None:
        loader = self.not_by_itself()
        inner = self.put("inner", elf_naming(loader))
        self.put("bin/nix-store", f"#! {inner} -e\nexec something\n")
        self.says(self.run_it("ask"), 6, "program: ask\n")

    def test_no_loader_runs_it(self) -> None:
        self.not_by_itself()
        refused = self.put("refuses", "#!/bin/sh\necho stub >&2\nexit 127\n")
        for store in (elf_naming(refused), elf_naming("/nowhere/else"), b"\x7fELF\2\1", b"#!", b""):
            self.put("bin/nix-store", store)
            ran = self.run_it("ask")
            self.assertEqual((ran.returncode, ran.stdout), (127, ""))
            self.assertEqual(len(ran.stderr.splitlines()), 1, ran.stderr)
            self.assertIn("doesn't run here, neither by itself nor by the loader of nix-store", ran.stderr)


if __name__ == "__main__":
    unittest.main()
