#!/usr/bin/env bash
# Tries the wrong bodies of these crates, those in the gate (.edit) and those beside it (.md), side by side:
#
#     checks/wrong-bodies.sh [CRATE..]
#
# Without a name those of all crates, which takes hours. The files are those of the working tree, in a copy, so
# that the checkout isn't touched; what `rt check` has kept of them on this machine is begun with. It says a line for each
# body, which goal refuses it or what became of it, and ends with
#
#     N refused, M accepted, K bad
#
# An accepted one is still proved: the contract is too weak, or the body means what the true one means. A bad one can't be
# applied, or doesn't compile, so that no contract was tried, or its check was ended from outside. The status is 0 where
# all are refused, 1 where one isn't, 2 where none was tried.
set -u
cd "$(dirname "$0")/.." || exit 2
work=$(mktemp -d) || exit 2
trap 'rm -rf "$work"' EXIT
mkdir "$work/copy"
git ls-files -z --cached --others --exclude-standard crates crates.txt HANDLES \
    | tar --null --ignore-failed-read --files-from=- --create --file=- 2>/dev/null | tar --extract --file=- --directory="$work/copy"
lanes=$(.ci/lanes)
cd "$work/copy" || exit 2

names=()
for folder in crates/*/must-fail; do
    name=$(basename "$(dirname "$folder")")
    if [ $# -eq 0 ] || [[ " $* " == *" $name "* ]]; then
        names+=("$name")
        for body in "$folder"/*.md; do
            [ -e "$body" ] && mv "$body" "${body%.md}.edit"
        done
    fi
done
for name in "$@"; do
    [ -d "crates/$name/must-fail" ] || echo "$name has no wrong bodies"
done
[ ${#names[@]} -gt 0 ] || { echo 'no wrong body to try' >&2; exit 2; }

RT_JOBS=${RT_JOBS-$lanes} rt must-fail "${names[@]}" 2>&1 | tee "$work/log"
count() { grep -c -E "must-fail [^ ]+: $1" "$work/log"; }
refused=$(count 'refused, as it must be')
accepted=$(count 'NOT REFUSED')
tried=$(find crates -path '*/must-fail/*.edit' | grep -c -E "^crates/($(IFS='|'; echo "${names[*]}"))/")
bad=$((tried - refused - accepted))
echo "$refused refused, $accepted accepted, $bad bad"
[ "$tried" -gt 0 ] || exit 2
[ "$refused" -eq "$tried" ]
