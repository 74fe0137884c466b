#!/bin/sh
# A driver of `nix-dispatch serve` in POSIX shell: it builds the farm's example with a sleep for each build, as
# many at once as the park has slots. What it would copy and build it only says.
#
#     examples/serve/drive.sh [JOURNAL]
#
# With a journal it goes on from what that holds: leases that were begun are then taken up anew.
set -eu
journal=${1:+$(realpath "$1")}
cd "$(dirname "$0")/../.."
program=${NIX_DISPATCH:-crates/nix_dispatch/out/nix_dispatch}
folder=$(mktemp -d)
trap 'rm -rf "$folder"' EXIT
mkfifo "$folder/commands" "$folder/answers" "$folder/ended"
"$program" serve --bundle examples/farm/bundle --builders @examples/farm/builders --extra aarch64-linux \
  --features kvm,nixos-test ${journal:+--journal "$journal" --resume} \
  < "$folder/commands" > "$folder/answers" &
session=$!
exec 3> "$folder/commands" 4< "$folder/answers" 5<> "$folder/ended"

# Reads an answer up to its line `ready`, and notes which derivations got a lease.
chosen=
hear() {
  while read -r word rest <&4; do
    case $word in
      ready) return ;;
      chosen) chosen="$chosen ${rest%% *}" ;;
    esac
    printf '%s\n' "$word $rest"
  done
  wait "$session" || exit $? # it ended early, and has said why
  exit 5
}

# Asks for something, and hears the answer.
ask() {
  printf '%s\n' "$*" >&3
  hear
}

# What a transport does: copies the paths of the job, builds, and says so at the end.
build() {
  shift 3
  path=$1
  shift
  echo "copying $# paths for $path" >&2
  sleep 0."$(($$ % 5 + 1))"
}

hear # the leases of the opening
if [ -n "$journal" ]; then
  # Leases from before: the machine and what it lacks stand in their jobs.
  for drv in $(ask report | sed -n 's/^drv \([0-9]*\) leased .*/\1/p'); do
    case " $chosen " in *" $drv "*) ;; *) chosen="$chosen $drv" ;; esac
  done
fi
running=0
while [ -n "$chosen" ] || [ "$running" -gt 0 ]; do
  leases=$chosen
  chosen=
  for drv in $leases; do
    job=$(ask "job $drv" | sed -n 's/^job //p')
    ask "start $drv" # refused where it was started before; then it is built once more
    { build $job && echo "$drv" >&5; } &
    running=$((running + 1))
  done
  if [ -z "$chosen" ]; then
    read -r drv <&5
    running=$((running - 1))
    ask "built $drv"
  fi
done
ask report
exec 3>&- # the end of the commands ends the session
wait "$session"
