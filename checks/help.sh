#!/bin/sh
# The man page and the completions: that they are what tools/help.py makes of what the commands say now, and what each
# shell that is here completes by them. CHANGELOG.md has the version that the program says. NIX_DISPATCH names the program.
set -eu
cd "$(dirname "$0")/.."
folder=$(mktemp -d)
trap 'rm -rf "$folder"' EXIT

fail() {
  echo "help: $*"
  exit 1
}

python3 tools/help.py --check || fail 'what is kept below share/ is not what the commands say'
version=$("${NIX_DISPATCH:-crates/nix_dispatch/out/nix_dispatch}" --version | sed -n '1s/^nix-dispatch //p')
grep -qxF "## $version" CHANGELOG.md || fail "CHANGELOG.md doesn't say what $version has"

# same WORDS: whether $folder/got has just these lines, in any order.
same() {
  tr ' ' '\n' < "$folder/wanted" | sort > "$folder/wanted.lines"
  sort "$folder/got" | diff "$folder/wanted.lines" - || fail "$*"
}

# The folder from which it is completed.
mkdir "$folder/at" "$folder/at/inner"
touch "$folder/at/it.drv" "$folder/at/other"

# bash WORD ..: completes the last word.
in_bash() {
  (
    cd "$folder/at"
    # shellcheck disable=SC2016  # bash's words
    bash -c '. "$1"
      shift; COMP_WORDS=(nix-dispatch "$@") COMP_CWORD=$#; _nix_dispatch; printf "%s\n" "${COMPREPLY[@]}"' \
      completed "$top/share/bash-completion/completions/nix-dispatch" "$@" > "$folder/got"
  )
}

in_fish() {
  # shellcheck disable=SC2016  # fish's words
  (cd "$folder/at" && HOME=$folder fish --no-config -c 'source $argv[1]; complete -C "nix-dispatch $argv[2]"' \
    "$top/share/fish/vendor_completions.d/nix-dispatch.fish" "$*") | cut -f 1 > "$folder/got"
}

top=$PWD tried=
for shell in bash fish; do
  command -v $shell > /dev/null || continue
  tried="$tried $shell"
  echo 'report run' > "$folder/wanted"
  "in_$shell" r
  same "$shell: the commands"
  echo '--keep-failed --keep-going' > "$folder/wanted"
  "in_$shell" build --keep
  same "$shell: the options of build"
  echo '--resume' > "$folder/wanted"
  "in_$shell" run --jobs 3 --res
  same "$shell: the options of run"
  echo 'inner/' > "$folder/wanted"
  "in_$shell" build -o i
  sed -i 's|^inner$|inner/|' "$folder/got"
  same "$shell: a folder"
  echo 'it.drv' > "$folder/wanted"
  "in_$shell" gather -o out it
  same "$shell: a derivation"
  echo 'other' > "$folder/wanted"
  "in_$shell" audit --history oth
  same "$shell: a file"
done
if command -v zsh > /dev/null; then
  timeout 120 zsh -f checks/help/completed.zsh "$top/share/zsh/site-functions" "$folder/at" || fail 'zsh: a line is not completed'
  tried="$tried zsh"
fi
if command -v groff > /dev/null; then
  groff -man -Tutf8 -ww -P-cbou share/man/man1/nix-dispatch.1 > "$folder/page" 2> "$folder/said" || fail 'groff refuses the page'
  [ ! -s "$folder/said" ] || fail "groff says of the page: $(cat "$folder/said")"
  grep -q '^COMMANDS THAT BUILD' "$folder/page" || fail 'the page has no commands'
  tried="$tried groff"
fi
echo "help: the page and the completions are as the commands say; tried with:$tried"
