#!/usr/bin/env python3
"""Runs the commands that README.md, docs/SERVE.md, docs/JOURNAL.md and docs/REFUSALS.md show with an answer, and looks
for that answer in what the built program says: its lines have to stand there one after another.

A command is what stands between fences, an answer the lines behind it that begin with four blanks. Commands of
other programs than `nix-dispatch` have no answers. `./try` is run as the built program, which gives the same.
"""

import os
import re
import subprocess
import sys
import tempfile

TOP = os.path.dirname(os.path.dirname(os.path.abspath(__file__)))
PROGRAM = os.path.join(TOP, 'crates', 'nix_dispatch', 'out', 'nix_dispatch')
PAGES = ['README.md', 'docs/SERVE.md', 'docs/JOURNAL.md', 'docs/REFUSALS.md']


def examples(text):
    """The commands with their answers."""
    parts = re.split(r'^```sh\n(.*?)^```\n', text, flags=re.M | re.S)
    for command, behind in zip(parts[1::2], parts[2::2]):
        answer = re.search(r'(?:^    .*\n)+', behind, flags=re.M)
        if answer:
            yield command.strip(), [line[4:] for line in answer.group().splitlines()]


def said(command, folder):
    """What a command says on both outputs."""
    words = command.replace('./try', 'nix-dispatch')
    path = folder + os.pathsep + os.environ['PATH']
    done = subprocess.run(['sh', '-c', words], cwd=TOP, env=dict(os.environ, PATH=path), stdin=subprocess.DEVNULL,
                          stdout=subprocess.PIPE, stderr=subprocess.STDOUT, text=True, timeout=60)
    return done.stdout.splitlines()


def main():
    count = 0
    with tempfile.TemporaryDirectory() as folder:
        os.symlink(PROGRAM, os.path.join(folder, 'nix-dispatch'))
        for page in PAGES:
            with open(os.path.join(TOP, page), encoding='utf-8') as file:
                text = file.read()
            for command, answer in examples(text):
                lines = said(command, folder)
                places = range(len(lines) - len(answer) + 1)
                if not any(lines[at:at + len(answer)] == answer for at in places):
                    sys.exit(f'examples: {page} shows another answer of: {command}\n' + '\n'.join(lines[:20]))
                count += 1
    print(f'examples: {count} commands answer as the pages show')


main()
