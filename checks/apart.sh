#!/bin/sh
# Builds graphs on machines that are apart: each has a network, mount and process namespace, a store, a nix-daemon with
# build users, a stock sshd and a host key of its own, behind a router with round-trip times and cuts. It looks at what
# farm/build makes of a night in which nobody is there:
#
#     checks/apart.sh [-k] [CASE ..]
#
# A case is a function below or in apart/nights.sh. Those that are named are run one after another; without a name all
# are, some side by side, on machines of their own. Each says in a line what it saw. NIX_DISPATCH names the program. It
# needs root, Nix 2.8 or later with its build users, a static busybox, Python 3, OpenSSH's sshd, iproute2 and
# /dev/net/tun, and installs nothing. No address outside of its namespaces is used. It takes fifteen minutes at most:
# what isn't done by then is ended, and counts as failed. It leaves nothing behind; with -k the folders with all that it
# made stay.
set -u

keep=''
if [ "${1-}" = -k ]; then keep=-k; shift; fi
for command in nix-store busybox python3 ssh ssh-keygen ip nsenter unshare setpriv flock timeout; do
  command -v "$command" > /dev/null || { echo "apart: there is no $command (Debian: nix-bin, busybox-static, python3, openssh-server, iproute2)" >&2; exit 2; }
done
[ -c /dev/net/tun ] || { echo 'apart: there is no /dev/net/tun' >&2; exit 2; }
cd "$(dirname "$0")/.." || exit 2
farm=${FARM-$PWD/farm}
export NIX_DISPATCH="${NIX_DISPATCH-$PWD/crates/nix_dispatch/out/nix_dispatch}"
unset NIX_REMOTE NIX_PATH NIX_SSHOPTS NIX_CONF_DIR
graph=$PWD/checks/bad-day/graph.nix

# What is run side by side; most of a case's time is waiting. `good` and `shared` keep a processor busy by themselves.
lanes='good,untrusted,differs hung,stuck,key late,stale,lists vanished,away,damaged shared'
side_by_side() {
  begun=$(date +%s) running=''
  # shellcheck disable=SC2086  # process numbers
  trap 'kill $running 2> /dev/null; wait; exit 130' INT TERM
  for lane in $lanes; do
    # shellcheck disable=SC2046,SC2086  # names, and an option or none
    timeout 900 checks/apart.sh $keep $(echo "$lane" | tr ',' ' ') &
    running="$running $!"
  done
  failed=0
  for one in $running; do
    wait "$one"
    case $? in
      0) ;;
      124) echo 'apart: FAILED: fifteen minutes are over'; failed=1 ;;
      *) failed=1 ;;
    esac
  done
  echo "apart: $(($(date +%s) - begun)) s"
  return "$failed"
}
if [ $# -eq 0 ]; then
  side_by_side
  exit
fi

folder=$(mktemp -d /tmp/apart.XXXXXX)
# shellcheck source=checks/apart/park.sh
. checks/apart/park.sh
# shellcheck disable=SC2317  # the trap calls it
clean_up() {
  if [ -n "$keep" ]; then
    for name in here $names; do stop_machine "$name"; done
    [ -z "$router" ] || kill "$router"
    echo "apart: $folder"
    return
  fi
  end_park
}
trap clean_up EXIT
trap 'exit 130' INT TERM
make_park

# The derivation of an attribute, with the salt of the case, as root here; it is a root of no collection.
drv() { on here nix-instantiate "$graph" --argstr salt "$salt" -A "$1" 2> /dev/null; }
alices() { as_alice nix-instantiate "$graph" --argstr salt "$salt" -A "$1" 2> /dev/null; }

# WHO NAME OPTIONS ..: runs farm/build into a folder of the name, as root here or as alice. `status` and `took` (in
# milliseconds) are what came of it.
build() {
  begin "$@"
  started=$(date +%s%3N)
  finish 3000
  took=$(($(date +%s%3N) - started))
}
# The same in the background.
begin() {
  who=$1 name=$2
  shift 2
  out=$folder/$name
  case $who in here) by='on here' ;; *) by=as_alice; install -d -o 61500 -g 61500 "$out" ;; esac
  # shellcheck disable=SC2086  # words
  $by env "NIX_DISPATCH=$NIX_DISPATCH" "$farm/build" -o "$out" --builders "@$folder/${list-builders}" --jobs 0 "$@" \
    > "$folder/$name.out" 2> "$folder/$name.err" < /dev/null &
  builder=$!
}
# Waits for it, so many tenths of a second at most.
finish() {
  soon "$1" ended || { wrong="$wrong; it hangs"; on here pkill -KILL -f "$folder/$name"; }
  wait "$builder"
  status=$?
}

# Waits so many tenths of a second at most for a command to succeed.
soon() {
  left=$1
  shift
  while [ "$left" -gt 0 ]; do
    if "$@" > /dev/null 2>&1; then return 0; fi
    sleep 0.1
    left=$((left - 1))
  done
  return 1
}
ended() { ! kill -0 "$builder" 2> /dev/null; }
logged() { cat "$folder/$name"/*.log 2> /dev/null | grep -q -e "$1"; }

# Whether the case goes on; else it says what is wrong.
wrong=''
want() {
  what=$1
  shift
  if "$@"; then return 0; fi
  wrong="$wrong; $what"
  return 1
}
is() { [ "$1" = "$2" ]; }
has() { grep -q -e "$2" "$1" 2> /dev/null; }
counted() { sed -n "s/^$1 //p" "$folder/$name/report" 2> /dev/null; }
downs() { cat "$folder/$name"/history.* 2> /dev/null | grep -c '^down '; }

# Each history of the run is legal, and its counts are the graph's: DERIVATIONS.
sound() {
  for history in "$folder/$name"/history*; do
    [ -s "$history" ] || continue
    want "$history isn't legal" has "$(echo "$history" | sed 's|/history\([^/]*\)$|/verdict\1|')" '^legal '
  done
  want "the total of $name is $(counted total) and not $1" is "$(counted total)" "$1"
  want "the form of $name/report.json is another: $(python3 checks/bad-day/form.py "$folder/$name/report.json" "$1" 2>&1)" \
    python3 checks/bad-day/form.py "$folder/$name/report.json" "$1" > /dev/null 2>&1
}

# shellcheck source=checks/apart/nights.sh
. checks/apart/nights.sh

# 31 derivations of no work on three machines, at round trips of 0 and 40 ms, beside nix-store --realise.
good() {
  { machine one 4; machine two 4; machine three 4; } > "$folder/builders"
  told=''
  for trip in 0 40; do
    delay $((trip / 2))
    salt=good$trip
    build here "good$trip" "$(drv none)"
    want "at $trip ms: status $status" is "$status" 0
    sound 31
    want "at $trip ms: standard output has more than the path" is "$(cat "$folder/$name.out")" "$(on here readlink "$folder/$name/result")"
    want "at $trip ms: farm/status says another thing" is "$(on here "$farm/status" "$folder/$name" | tail -n 1)" '31 built of 31'
    ours=$took
    salt=theirs$trip
    root=$(drv none)
    started=$(date +%s%3N)
    on here nix-store --realise --max-jobs 0 --builders "@$folder/builders" "$root" > /dev/null 2>&1 || wrong="$wrong; nix-store fails"
    theirs=$(($(date +%s%3N) - started))
    told="$told, at $trip ms $ours and $theirs ms"
    want "at $trip ms it takes $ours ms, and nix-store $theirs" [ "$ours" -le "$theirs" ]
  done
  delay 0
  did="31 derivations of no work on three machines, and nix-store --realise${told#,}"
}

failed=0
for case in "$@"; do
  wrong='' did=''
  begun=$(date +%s)
  "$case"
  for name in $names; do join "$name"; done
  took=$(($(date +%s) - begun))
  if [ -z "$wrong" ]; then
    echo "$case: $did ($took s)"
  else
    echo "$case: FAILED: ${wrong#; } ($took s)"
    tail -n 30 "$out.err" | sed 's/^/    /'
    failed=1
  fi
done
exit "$failed"
