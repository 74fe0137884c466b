#!/bin/sh
# Runs a small graph on real Nix stores by agents that aren't farm/build's own: a `farm/agent` for each slot, whose pipes
# the program opens.
#
#     checks/own-agent.sh [-k]
#
# One machine, whose store is a folder, and this one build the graph of real-park.sh. Looked at are the status, that the
# history is legal, that each output of what it calls built is valid here, that something was built there, and that the
# broken one failed with the status of its builder.
#
# It needs Nix 2.8 or later, a static busybox, Python 3 and root, as real-park.sh does, and no network. It installs
# nothing. NIX_DISPATCH names the program. With -k the folder with all that it made stays.
set -eu

keep=''
if [ "${1-}" = -k ]; then keep=yes; shift; fi
for command in nix-store busybox python3; do
  command -v "$command" > /dev/null || { echo "own-agent: there is no $command (Debian: nix-bin, busybox-static, python3)" >&2; exit 2; }
done
cd "$(dirname "$0")/.."
program=${NIX_DISPATCH-$PWD/crates/nix_dispatch/out/nix_dispatch}
folder=$(mktemp -d)
# shellcheck disable=SC2317  # the trap calls it
clean_up() {
  if [ -n "$keep" ]; then echo "own-agent: $folder"; return; fi
  chmod -R u+w "$folder"
  rm -rf "$folder"
}
trap clean_up EXIT
die() {
  echo "own-agent: $*" >&2
  exit 1
}

mkdir "$folder/conf" "$folder/pipes"
cat > "$folder/conf/nix.conf" << END
build-users-group =
sandbox = true
sandbox-paths = /bin/sh=$(command -v busybox)
substitute = false
substituters =
extra-platforms = i686-linux
system-features = big-parallel
END
export NIX_CONF_DIR="$folder/conf" NIX_REMOTE="$folder/local"
unset NIX_PATH
nix --extra-experimental-features nix-command store ping --store "$folder/one" 2> /dev/null

entry="$folder/one x86_64-linux,i686-linux - 3 1 big-parallel - -"
all=$(nix-instantiate checks/real-park/graph.nix -A all 2> /dev/null)
broken=$(nix-instantiate checks/real-park/graph.nix -A broken 2> /dev/null)
farm/gather -o "$folder/graph" "$all" "$broken"
set -- --builders "$entry" --jobs 1 --keep-going

# An agent for each slot, at its two pipes.
"$program" park "$@" > "$folder/park"
while read -r machine slot uri _ _; do
  at=$folder/pipes/$machine.$slot
  mkfifo "$at.calls" "$at.answers"
  own=$entry
  [ "$uri" != local ] || own=local
  farm/agent "$own" < "$at.calls" > "$at.answers" 2> "$folder/$machine.$slot.log" &
done < "$folder/park"

# A write to a pipe whose agent is gone is to fail, and not to end the run.
trap '' PIPE
set -- "$@" --bundle "$folder/graph/bundle" --info "$folder/graph/info"
status=0
"$program" run "$@" --agents "$folder/pipes" > "$folder/history" || status=$?
wait
[ "$status" -eq 1 ] || { cat "$folder"/*.log >&2; die "the status of the run is $status, and one derivation fails"; }

verdict=$("$program" audit "$@" --history "$folder/history") || die "the history isn't legal: $verdict"
number=$(grep -n "^$broken " "$folder/graph/bundle" | cut -d: -f1)
grep -qx "failed $((number - 1)) status 3" "$folder/history" || die "the broken one didn't fail with status 3"

total=$(wc -l < "$folder/graph/bundle") built=$(grep -c '^built ' "$folder/history")
[ "$built" -eq $((total - 1)) ] || die "$built of $total are built, and one alone fails"
drvs=$(cut -d' ' -f1 "$folder/graph/bundle" | grep -vxF "$broken")
# shellcheck disable=SC2046,SC2086  # store paths
nix-store --check-validity $(nix-store --query --outputs $drvs) || die "not all that is built is valid here"
there=$(nix --extra-experimental-features nix-command path-info --all --store "$folder/one" | wc -l)
[ "$there" -gt 10 ] || die "the machine has $there paths, and most were to be built there"
agents=$(wc -l < "$folder/park")
echo "own-agent: $built derivations by $((agents)) agents, $verdict; $((there)) paths on the machine, and the broken one failed with status 3"
