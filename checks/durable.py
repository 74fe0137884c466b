#!/usr/bin/env python3
"""What `serve` asks the system for, seen from outside: strace lists the calls of the built program in order.

An entry's line is written to the journal and made durable before its answer is written; a new journal is made
durable in its folder before it has a line; a resume makes what stays durable before anything is answered, cut or
not. Then strace has calls refused in turn: of the turn whose journal is refused nothing is answered, the session ends
with `journal failed`, whatever the cause, and what stays in the file is gone on from. A file that another session
made since it was looked for is in use.
"""
import os
import re
import subprocess
import sys
import tempfile

ROOT = os.path.dirname(os.path.dirname(os.path.abspath(__file__)))
PROGRAM = os.path.join(ROOT, 'crates/nix_dispatch/out/nix_dispatch')
FARM = os.path.join(ROOT, 'examples/farm')
COMMANDS = b'start 0\nask 3\nbuilt 0\njob 18\nstart 18\nnothing\nfail 18 1\n'
# The turns that have entries: the opening and four commands.
TURNS = 5
CALL = re.compile(r'^\d+ +(\w+)\((\d+|AT_FDCWD)(?:<([^>]*)>)?(.*)\) += (-?\d+)')


def fail(text):
    sys.exit(f'durable: {text}')


def session(folder, journal, commands, resumes=False, strace=()):
    """Holds a session under strace: its status, what it wrote to each output, and the calls that were traced."""
    trace = os.path.join(folder, 'trace')
    words = ['strace', '-f', '-y', '-s', '64', '-o', trace, '-e', 'trace=openat,write,fdatasync,fsync,ftruncate']
    words += [*strace, PROGRAM, 'serve', '--bundle', f'{FARM}/bundle', '--builders', f'@{FARM}/builders', '--extra',
              'aarch64-linux', '--features', 'kvm,nixos-test', '--journal', journal]
    words += ['--resume'] * resumes
    done = subprocess.run(words, input=commands, capture_output=True, check=False)
    calls = []
    with open(trace, encoding='utf-8', errors='replace') as lines:
        for line in lines:
            match = CALL.match(line)
            if match:
                name, descriptor, path, _, answer = match.groups()
                calls.append((name, descriptor, path, int(answer)))
    return done.returncode, done.stdout, done.stderr, calls


def events(calls, journal):
    """The calls that count: lines for the journal, its syncs and cuts, the syncs of its folder, and answers."""
    folder = os.path.dirname(journal)
    kinds = {('write', journal): 'line', ('fdatasync', journal): 'sync', ('ftruncate', journal): 'cut',
             ('fsync', folder): 'folder'}
    for name, descriptor, path, answer in calls:
        kind = 'answer' if (name, descriptor) == ('write', '1') else kinds.get((name, path))
        if kind is not None and answer >= 0:
            yield kind


def durable_first(seen):
    """Whether each answer comes when no line of the journal waits for a sync."""
    waiting = False
    for kind in seen:
        if kind == 'answer' and waiting:
            return False
        waiting = kind == 'line' or (waiting and kind != 'sync')
    return True


def main():
    if not os.access(PROGRAM, os.X_OK):
        fail('the program is not built: ./build')
    with tempfile.TemporaryDirectory() as folder:
        folder = os.path.realpath(folder)
        journal = os.path.join(folder, 'journal')
        status, whole, _, calls = session(folder, journal, COMMANDS)
        seen = list(events(calls, journal))
        if status != 1:
            fail(f'the session ends with status {status}')
        if seen[0] != 'folder' or not durable_first(seen):
            fail(f'a new journal: {seen}')
        if (seen.count('line'), seen.count('sync'), seen.count('answer')) != (TURNS, TURNS, 8):
            fail(f'a new journal: {seen}')
        with open(journal, 'rb') as file:
            entries = file.read()

        for left, name in ((entries, 'a whole journal'), (entries + b'chosen 3 ', 'a journal with half a line')):
            with open(journal, 'wb') as file:
                file.write(left)
            status, _, said, calls = session(folder, journal, b'', resumes=True)
            seen = [kind for kind in events(calls, journal) if kind != 'folder']
            if status != 1 or seen[:2] != ['cut', 'sync'] or 'answer' not in seen or not durable_first(seen):
                fail(f'{name}: status {status}, {seen}, {said}')
            with open(journal, 'rb') as file:
                if file.read() != entries:
                    fail(f'{name}: a resume that adds nothing leaves something else')

        refused = 0
        for cause in ('ENOMEM', 'ENOSPC', 'EIO', 'EDQUOT'):
            for call in ('write', 'fdatasync'):
                for turn in range(1, TURNS + 1):
                    os.remove(journal)
                    injected = ('-P', journal, '-e', f'inject={call}:error={cause}:when={turn}')
                    status, answers, said, _ = session(folder, journal, COMMANDS, strace=injected)
                    if (status, said) != (5, b'nix-dispatch: journal failed\n') or not whole.startswith(answers):
                        fail(f'{call} {turn} refused by {cause}: status {status}, {said}, {answers}')
                    if answers.count(b'ready\n') >= whole.count(b'ready\n'):
                        fail(f'{call} {turn} refused by {cause}: all is answered')
                    status, _, said, _ = session(folder, journal, b'', resumes=True)
                    with open(journal, 'rb') as file:
                        kept = file.read()
                    told = [line for line in answers.splitlines(keepends=True) if line in entries.splitlines(keepends=True)]
                    if status not in (0, 1) or not all(line in kept for line in told):
                        fail(f'{call} {turn} refused by {cause}: gone on from with status {status}, {said}, {kept}')
                    refused += 1

        status, _, said, _ = session(folder, journal, b'', strace=('-P', journal, '-e', 'inject=openat:error=ENOENT:when=1'))
        if (status, said) != (3, b'nix-dispatch: journal: InUse\n'):
            fail(f'a file that was made meanwhile: status {status}, {said}')
    print(f'durable: each answer behind its sync, each resume behind one, {refused} refusals of the journal told as its own')


main()
