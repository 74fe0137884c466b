#!/usr/bin/env python3
"""Sees that each wrong body can still be applied; needs no prover and takes a second.

    checks/bodies-apply.py

A wrong body is a file crates/NAME/must-fail/WHAT_IT_DOES_WRONG.edit, which the gate tries, or the same with .md, which
`checks/wrong-bodies.sh` tries: lines `file: PATH`, and behind each pairs of `old: TEXT` and `new: TEXT`. Each `old:` text
stands once in its file, as the pairs before have left it. This says of each body that can't be applied why, and then how
many there are. The status is 0 where each one can be applied, and 1 where one can't.
"""
import pathlib
import sys


def wrong_with(body, crate):
    """Says what is wrong with the body of a crate, or nothing where it can be applied."""
    texts, name, old, pairs = {}, None, None, 0
    for line in body.read_text(encoding="utf-8").split("\n"):
        if line.startswith("file: "):
            name = line.removeprefix("file: ").strip()
            if not (crate / name).is_file():
                return f"there is no file {name}"
            texts.setdefault(name, (crate / name).read_text(encoding="utf-8"))
        elif line.startswith("old: "):
            old = line.removeprefix("old: ")
        elif line.startswith("new:"):
            if name is None or not old:
                return "a line new: stands before any file: or old: line"
            found = texts[name].count(old)
            if found != 1:
                return f"{found} places of {name} have: {old}"
            new = line.removeprefix("new:").removeprefix(" ")
            if new == old:
                return f"it leaves as it is: {old}"
            texts[name], old, pairs = texts[name].replace(old, new), None, pairs + 1
    return None if pairs else "it has no pair of old: and new: lines"


def main():
    top = pathlib.Path(__file__).resolve().parent.parent
    tried = {".edit": 0, ".md": 0}
    stems, bad = set(), 0
    for body in sorted(top.glob("crates/*/must-fail/*")):
        label = body.relative_to(top)
        if body.suffix not in tried:
            why = "it is named neither .edit nor .md"
        elif body.with_suffix("") in stems:
            why = "there are two of this name, .edit and .md"
        else:
            tried[body.suffix] += 1
            why = wrong_with(body, body.parent.parent)
        stems.add(body.with_suffix(""))
        if why:
            bad += 1
            print(f"{label}: {why}")
    print(f"wrong bodies: {tried['.edit']} in the gate, {tried['.md']} beside it, {bad} can't be applied")
    return 1 if bad else 0


if __name__ == "__main__":
    sys.exit(main())
