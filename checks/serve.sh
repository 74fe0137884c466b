#!/bin/sh
# Holds sessions with the built program: the farm's script, whose answers have to be what `sim` writes, with a line
# `ready` behind each; and the two drivers of examples/serve, each with a journal that has to be a legal history in
# which all is built, also where the session is killed and gone on from.
set -eu
cd "$(dirname "$0")/.."
program=crates/nix_dispatch/out/nix_dispatch
farm=examples/farm
folder=$(mktemp -d)
trap 'rm -rf "$folder"' EXIT

fail() {
  echo "serve: $*"
  exit 1
}

# The conversation of the script.
got=0
{ cat "$farm/script"; echo report; } > "$folder/commands"
"$program" serve --bundle "$farm/bundle" --builders "@$farm/builders" --keep-going --journal "$folder/script" \
  < "$folder/commands" > "$folder/answers" || got=$?
want=0
"$program" sim --builders "@$farm/builders" --keep-going --script "$farm/script" < "$farm/bundle" > "$folder/simulated" || want=$?
[ "$got" -eq "$want" ] || fail "the status is $got"
grep -vx ready "$folder/answers" | cmp - "$folder/simulated" || fail 'the answers are not those of sim'
[ "$(grep -cx ready "$folder/answers")" -eq $(($(wc -l < "$folder/commands") + 1)) ] || fail 'there is not one ready for each command'

# A bundle that is refused leaves no new journal.
got=0
echo 'no line of a bundle' > "$folder/bad"
"$program" serve --bundle "$folder/bad" --journal "$folder/new" < /dev/null > "$folder/answers" 2> "$folder/said" || got=$?
[ "$got" -eq 3 ] || fail "a refused bundle ends with status $got"
[ ! -e "$folder/new" ] || fail 'a refused bundle leaves a journal'

# The conversation of docs/SERVE.md.
printf 'job 0\nstart 0\nstart 0\nbuilt 0\nsomething\n' \
  | "$program" serve --bundle "$farm/bundle" --builders "@$farm/builders" --extra aarch64-linux --features kvm,nixos-test \
    > "$folder/answers" || true
head -3 "$folder/answers" | sed 's/^/    /' > "$folder/opening"
sed -n '/^nix-dispatch serve --bundle examples\/farm\/bundle/,/^    ready$/p' docs/SERVE.md | grep '^    ' \
  | cmp - "$folder/opening" || fail 'the opening is not that of docs/SERVE.md'
sed -n 's/ .*//; 4,$p' "$folder/answers" | tr '\n' ' ' > "$folder/words"
printf 'job ready started ready refused ready built chosen chosen chosen ready refused ready ' | cmp - "$folder/words" \
  || fail 'the answers are not those of docs/SERVE.md'

# A command that is cut off while it is written is none, though it reads as one.
printf 'start 0\nbuilt 0' \
  | "$program" serve --bundle "$farm/bundle" --builders "@$farm/builders" --extra aarch64-linux --features kvm,nixos-test \
    > "$folder/answers" || fail "a line that is cut off ends with status $?"
grep -q '^started 0' "$folder/answers" || fail 'a whole line is not done'
[ "$(grep -cx ready "$folder/answers")" -eq 2 ] || fail 'a line that is cut off is done'

# A journal holds a legal history, and this many derivations are built in it.
audited() {
  "$program" audit --bundle "$farm/bundle" --builders "@$farm/builders" --extra aarch64-linux \
    --features kvm,nixos-test --history "$1" || fail "$1 is no legal history"
  [ "$(grep -c '^built ' "$1")" -eq 21 ] || fail "$1: not all is built"
}

for driver in examples/serve/drive.sh examples/serve/drive.py; do
  name=$(basename "$driver")
  "$driver" "$folder/$name" > "$folder/out" 2> "$folder/said" || fail "$driver ended with status $?"
  audited "$folder/$name"

  # The same with a session that is killed.
  "$driver" "$folder/killed-$name" > "$folder/out" 2> "$folder/said" &
  sleep 0.7
  session=$(pgrep -P $! -f "$program serve" || true)
  [ -z "$session" ] || kill -9 "$session"
  wait $! || true
  "$driver" "$folder/killed-$name" > "$folder/out" 2> "$folder/said" || fail "$driver: the second session ended with status $?"
  audited "$folder/killed-$name"
done
echo 'serve: the conversation of the script, and two drivers'
