#!/usr/bin/env python3
"""Sees that the pages name nothing that isn't there; needs no program and takes seconds.

    checks/names.py [PAGE ..]

The pages are README.md, CONTRIBUTING.md and docs/*.md, without docs/history. Looked at is what stands between backticks
in a line, and not what stands in a fenced block. A name is a function, a type, a definition, a clause, a file, a crate or
an option:

- a path exists as it is written, with its suffix or without, or below some folder of the repository, or is named by a
  file that isn't a page, as what `farm/build` makes; a part of it in capitals, as NAME, stands for any;
- an option, `--name`, stands in a file that isn't a page;
- `nd_name` is a crate;
- of `Type::function` both names stand together in a source file of Rattle;
- of "`name` of `nd_name`" the first is a word of that crate;
- any other name is a word of some source file, comments aside, or what such a file is called.

What else is meant by a word, as one of Nix, of Rust or of Rattle, stands in `MEANT` below. The status is 0 where all is
there, and 1 where something isn't, with a line for each.
"""
import pathlib
import re
import subprocess
import sys

TOP = pathlib.Path(__file__).resolve().parent.parent

# Words of others than this repository: the toolchain's, the system's, Nix's own functions, folders of a user's, and types
# that are made up for an example.
MEANT = set("""
    rattle rtlib.py start_lib --allow-holes --start --statements --incremental --extern out/rlib stamp
    perf clang --version sched_autogroup_enabled
    NIX_REMOTE_SYSTEMS canBuildLocally expandBuilderLines getDefaultExtraPlatforms getDefaultSystemFeatures
    Worker::run inputsRealised main_build_remote openSlotLock parseBuilderLine rightType tryLocalBuild willBuildLocally
    hello/bundle hello/info hello/journal
    Fault::Case Fault::Named
""".split())

# Names of what is gone, on a page that tells of it.
GONE = {'docs/PERF.md': set("""
    check_choice check_no_builder decide_by_kind_in find_early judge_no_builder take_turn_in
""".split())}

COMMENTS = {'.rt': '//', '.antt': '--', '.py': '#', '.sh': '#', '.c': '//'}
SUFFIXES = r'(?:rt|antt|py|sh|md|txt|edit|nix|c|json|drv|log)'
IS_PATH = re.compile(rf'[\w.+*-]*(?:/[\w.+*-]+)+/?|[\w-]+\.{SUFFIXES}')
IS_OPTION = re.compile(r'--[a-z][a-z-]*')
IS_QUALIFIED = re.compile(r'[A-Za-z]\w*(?:::[A-Za-z_]\w*)+')
IS_NAME = re.compile(r'[A-Za-z_]\w*')
IS_OF_CRATE = re.compile(r'`([\w:]+)`(?: \(`[\w/.]+`\))? (?:of|in) `((?:nd|nix)_\w+)`')
IS_FOR_ANY = re.compile(r'(?:^|[/_])[A-Z]+(?:[/_.]|$)')
LOOKS_CODED = re.compile(r'\w*[a-z0-9]_[a-z0-9]\w*|[A-Z][a-z0-9]+[A-Z]\w*')


def files_of_repository():
    """The files that git has or would take, as paths below the top."""
    asked = subprocess.run(['git', 'ls-files', '--cached', '--others', '--exclude-standard'], cwd=TOP, check=False,
                           stdout=subprocess.PIPE, text=True)
    if asked.returncode != 0:
        sys.exit(f'names: git has no list of files below {TOP}')
    return [name for name in asked.stdout.splitlines() if (TOP / name).is_file()]


def is_page(name):
    """Whether a file is one of the pages, or of docs/history: what stands there isn't there for that."""
    return name in ('README.md', 'CONTRIBUTING.md') or name.startswith('docs/')


def without_comments(text, suffix):
    """The text without what stands behind the comment mark of its language, at a line's beginning or behind a blank."""
    mark = COMMENTS.get(suffix)
    if not mark:
        return text
    return re.sub(rf'(?m)(?:^|(?<=\s)){re.escape(mark)}.*$', '', text)


class Repository:
    """What stands in the files that aren't pages, this one aside: their paths, words and options, and the words of each
    crate and of each Rattle file."""

    def __init__(self):
        self.paths, self.words, self.options, self.crates, self.sources = set(), set(), set(), {}, []
        for name in files_of_repository():
            path = pathlib.PurePath(name)
            self.paths.update('/'.join(part) for whole in (path, path.with_suffix('')) for part in runs(whole.parts))
            if not is_page(name) and TOP / name != pathlib.Path(__file__).resolve():
                self.take(path, (TOP / name).read_text(encoding='utf-8', errors='replace'))

    def take(self, path, text):
        """Adds what a file has that isn't a page."""
        self.options.update(IS_OPTION.findall(text))
        self.paths.update(IS_PATH.findall(text))
        words = set(IS_NAME.findall(without_comments(text, path.suffix)))
        words.update(re.findall(r'\w+', path.stem))
        self.words |= words
        if path.parts[0] == 'crates':
            self.crates.setdefault(path.parts[1], set()).update(words)
        if path.suffix in ('.rt', '.antt'):
            self.sources.append(words)

    def has_path(self, path):
        if '*' in path:
            return any(TOP.glob(path)) or any(TOP.glob('crates/*/' + path))
        return path.removeprefix('./').removesuffix('/..').rstrip('/') in self.paths

    def has_words_with(self, name):
        """Whether this is what many names begin or end with, as `write_` or `_in`."""
        if name.endswith('_'):
            return any(word.startswith(name) for word in self.words)
        return name.startswith('_') and any(word.endswith(name) for word in self.words)

    def has_qualified(self, name):
        parts = set(name.split('::'))
        return any(parts <= words for words in self.sources)


def runs(parts):
    """All runs of a path's parts, so that a file is found by any folder above it, and a folder too."""
    for start in range(len(parts)):
        for end in range(start + 1, len(parts) + 1):
            yield parts[start:end]


def prose(page):
    """The lines of a page that aren't in a block, with their numbers."""
    fenced = False
    for number, line in enumerate((TOP / page).read_text(encoding='utf-8').splitlines(), 1):
        if line.startswith('```'):
            fenced = not fenced
        elif not fenced and not line.startswith('    '):
            yield number, line


def names_in(span):
    """The names of a span: all of it where it is one, and else what can be nothing but a name."""
    whole = span.strip()
    if IS_QUALIFIED.fullmatch(whole) or IS_NAME.fullmatch(whole) or IS_PATH.fullmatch(whole):
        return [whole]
    found = re.findall(r'(?<![\w-])--[a-z][a-z-]*', span)
    for word in re.findall(r'[\w.+*/:-]+', re.sub(r'--[a-z][a-z-]*', ' ', span)):
        word = word.rstrip('.:')
        if IS_QUALIFIED.fullmatch(word) or LOOKS_CODED.fullmatch(word):
            found.append(word)
        elif IS_PATH.fullmatch(word):
            found.append(word)
        else:
            found.extend(part for part in word.split('.') if LOOKS_CODED.fullmatch(part))
    return found


def is_there(name, repository):
    """Whether the repository has what is called so, or others have."""
    if name in MEANT or IS_FOR_ANY.search(name) and ('/' in name or name.startswith('nd_')):
        return True
    if name.startswith('--'):
        return name in repository.options
    if '::' in name:
        return repository.has_qualified(name)
    if name.startswith('nd_') and '.' not in name and '/' not in name:
        return (TOP / 'crates' / name).is_dir() or name in repository.words
    if IS_NAME.fullmatch(name):
        return name in repository.words or repository.has_words_with(name)
    return name.startswith('/') or repository.has_path(name)


def strangers(line, repository):
    """How many names a line has, and of those that are nowhere what is to be said."""
    names = [name for span in re.findall(r'`([^`]+)`', line) for name in names_in(span)]
    said = [(name, f'there is no {name}') for name in names if not is_there(name, repository)]
    for name, crate in IS_OF_CRATE.findall(line):
        last = name.split('::')[-1]
        if last in repository.words and last not in repository.crates.get(crate, ()):
            said.append((name, f'{crate} has no {name}'))
    return len(names), said


def main():
    pages = sys.argv[1:] or ['README.md', 'CONTRIBUTING.md'] + sorted(
        str(path.relative_to(TOP)) for path in TOP.glob('docs/*.md'))
    for page in pages:
        if not (TOP / page).is_file():
            sys.exit(f'names: there is no page {page}')
    repository = Repository()
    count, missing = 0, 0
    for page in pages:
        for number, line in prose(page):
            names, said = strangers(line, repository)
            count += names
            for name, why in said:
                if name not in GONE.get(page, ()):
                    missing += 1
                    print(f'{page}:{number}: {why}')
    print(f'names: {count} on {len(pages)} pages, {missing} that are nowhere')
    return 1 if missing else 0


if __name__ == '__main__':
    sys.exit(main())
