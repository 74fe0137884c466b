"""How long a NAR is, beside one that is made here as Nix makes it."""

import os
import shutil
import tempfile
import unittest

from nix_farm.nar import nar_size


def string(words: bytes) -> bytes:
    return len(words).to_bytes(8, "little") + words + bytes(-len(words) % 8)


def strings(*words: str) -> bytes:
    return b"".join(string(word.encode()) for word in words)


def node(file: str) -> bytes:
    """The NAR's part for a file, a link or a folder."""
    if os.path.islink(file):
        return strings("(", "type", "symlink", "target", os.readlink(file), ")")
    if os.path.isdir(file):
        parts = [
            strings("entry", "(", "name", name, "node") + node(os.path.join(file, name)) + strings(")")
            for name in sorted(os.listdir(file))
        ]
        return strings("(", "type", "directory") + b"".join(parts) + strings(")")
    with open(file, "rb") as text:
        held = text.read()
    executable = strings("executable", "") if os.access(file, os.X_OK) else b""
    return strings("(", "type", "regular") + executable + strings("contents") + string(held) + strings(")")


class Sizes(unittest.TestCase):
    def setUp(self) -> None:
        self.folder = tempfile.mkdtemp(prefix="farm-test.")
        self.addCleanup(shutil.rmtree, self.folder)

    def make(self, name: str, text: str = "", mode: int = 0o444) -> str:
        file = os.path.join(self.folder, name)
        os.makedirs(os.path.dirname(file), exist_ok=True)
        with open(file, "w", encoding="utf-8") as one:
            one.write(text)
        os.chmod(file, mode)
        return file

    def test_files_of_each_length(self) -> None:
        for length in (0, 1, 7, 8, 9, 4096):
            file = self.make(f"file{length}", "x" * length)
            self.assertEqual(nar_size(file), len(strings("nix-archive-1") + node(file)), length)

    def test_a_folder_with_all_kinds(self) -> None:
        self.make("tree/bin/run", "#!/bin/sh\n", 0o555)
        self.make("tree/share/über", "text")
        self.make("tree/empty")
        os.makedirs(os.path.join(self.folder, "tree/none"))
        os.symlink("../bin/run", os.path.join(self.folder, "tree/share/link"))
        os.symlink("nowhere", os.path.join(self.folder, "tree/dangling"))
        tree = os.path.join(self.folder, "tree")
        self.assertEqual(nar_size(tree), len(strings("nix-archive-1") + node(tree)))

    def test_nothing_is_there(self) -> None:
        with self.assertRaises(OSError):
            nar_size(os.path.join(self.folder, "none"))


if __name__ == "__main__":
    unittest.main()
