#!/bin/sh
# Refuses the first, second, third allocation of the built program and so on, until a run meets none,
# for `ask`, `path`, `park`, `sim`, `audit`, `report` and `serve`. Each run must end with the ample output and its status, or
# with status 5, the line "nix-dispatch: out of memory" and no output, or for `sim` and `serve` the beginning of the
# ample output; a journal that `serve` leaves is gone on from. A run ends in one of its ways, and its history is
# legal; so with a journal, which is gone on from. Then it does so to the built test
# `allocations_refused` of `nd_test_ledger`, which looks at what a refused call on a dispatch leaves: each
# run of it must pass. It needs a C compiler, the program, and the tests that `rt test` leaves.
set -u
cd "$(dirname "$0")/.." || exit 2
program=crates/nix_dispatch/out/nix_dispatch
work=$(mktemp -d)
trap 'rm -rf "$work"' EXIT
cc -shared -fPIC -O1 -o "$work/refuse.so" checks/refuse.c -ldl || exit 2

# Whether the output is the beginning of the ample one.
is_beginning() {
  head -c "$(wc -c < "$work/out")" "$work/ample" | cmp -s - "$work/out"
}

# Whether a session goes on from the journal, where there is one.
is_gone_on_from() {
  [ -e "$work/journal" ] || return 0
  resumed=0
  "$program" serve --bundle examples/farm/bundle --builders @examples/farm/builders --journal "$work/journal" --resume \
    < /dev/null > "$work/resumed" || resumed=$?
  [ "$resumed" -le 1 ]
}

# Whether this is what a command may leave where it finds no memory.
is_left() {
  case $1 in
    sim) is_beginning ;;
    serve) is_beginning && is_gone_on_from ;;
    *) [ ! -s "$work/out" ] ;;
  esac
}

# Whether this is what it says then.
is_told() {
  [ "$(cat "$work/err")" = 'nix-dispatch: out of memory' ]
}

sweep() {
  input=$1
  shift
  "$program" "$@" < "$input" > "$work/ample"
  wanted=$?
  [ "$wanted" -le 1 ] || exit 1
  number=1
  last=0
  refused=0
  while [ "$number" -le 5000 ]; do
    rm -f "$work/journal"
    REFUSE=$number LD_PRELOAD="$work/refuse.so" "$program" "$@" < "$input" > "$work/out" 2> "$work/err"
    status=$?
    if [ "$status" -eq 5 ] && is_left "$1" && is_told; then
      refused=$((refused + 1))
    elif [ "$status" -eq "$wanted" ] && cmp -s "$work/out" "$work/ample"; then
      [ "$number" -gt $((last + 50)) ] && break
    else
      echo "$1: allocation $number refused: status $status"
      cat "$work/out" "$work/err"
      exit 1
    fi
    [ "$status" -eq 5 ] && last=$number
    number=$((number + 1))
  done
  echo "$1: $refused refusals, the last at allocation $last, each answered"
}

sweep crates/nix_dispatch/stdin ask --builders m
head -n 1 crates/nix_dispatch/stdin | sed 's/^[^ ]* //' | tr -d '\n' > "$work/text"
sweep "$work/text" path n0.drv
sweep examples/farm/bundle sim --builders @examples/farm/builders --keep-going --script examples/farm/script
{ head -n 8 examples/farm/script; echo job 0; echo report; } > "$work/commands"
sweep "$work/commands" serve --bundle examples/farm/bundle --builders @examples/farm/builders --journal "$work/journal"
sweep /dev/null park --builders @examples/farm/builders
sweep examples/farm/bundle audit --builders @examples/farm/builders --keep-going --history examples/farm/history
sweep examples/farm/bundle audit --builders @examples/farm/builders --extra aarch64-linux --features kvm,nixos-test --journal examples/farm/journal
sweep examples/farm/bundle report --builders @examples/farm/builders --extra aarch64-linux --features kvm,nixos-test --journal examples/farm/journal

# A run may go on without what it couldn't have: a lease then fails for want of memory, or its stand-in
# is lost. So it is refused, and writes nothing; or it ends, with a fault or without, and the history that
# it writes is legal. A journal that it leaves is legal too, and a run goes on from it.
run_verdict() {
  if [ -s "$work/out" ]; then
    "$program" audit --builders m --jobs 0 --history "$work/out" < crates/nix_dispatch/stdin
  else
    echo 'legal 0'
  fi
}
run_goes_on() {
  [ -e "$work/journal" ] || return 0
  "$program" audit --builders m --jobs 0 --journal "$work/journal" < crates/nix_dispatch/stdin > "$work/resumed" || return 1
  resumed=0
  "$program" run --builders m --jobs 0 --journal "$work/journal" --resume < crates/nix_dispatch/stdin > "$work/resumed" 2>&1 || resumed=$?
  [ "$resumed" -le 1 ] || grep -qx 'stop' "$work/journal"
}

# Such runs, with these words more.
sweep_runs() {
  rm -f "$work/journal"
  "$program" run --builders m --jobs 0 "$@" < crates/nix_dispatch/stdin > "$work/out"
  ample=$?.$(run_verdict)
  number=1
  refused=0
  last=0
  while [ "$number" -le $((last + 200)) ] && [ "$number" -le 5000 ]; do
    rm -f "$work/journal"
    REFUSE=$number LD_PRELOAD="$work/refuse.so" "$program" run --builders m --jobs 0 "$@" \
      < crates/nix_dispatch/stdin > "$work/out" 2> "$work/err"
    end=$?.$(run_verdict)
    case $end in
      [015].'legal '*) ;;
      *) echo "run${1:+ $1}: allocation $number refused: status and verdict $end"; exit 1 ;;
    esac
    run_goes_on || { echo "run${1:+ $1}: allocation $number refused: its journal isn't gone on from: $(cat "$work/resumed")"; exit 1; }
    [ "$end" = "$ample" ] || { refused=$((refused + 1)); last=$number; }
    number=$((number + 1))
  done
  if [ "$refused" -eq 0 ] || [ "$number" -gt 5000 ]; then
    echo "run${1:+ $1}: $refused runs were not the ample one, of $number"
    exit 1
  fi
  echo "run${1:+ $1}: $refused runs were not the ample one, the last at allocation $last, and each history is legal"
}
sweep_runs
sweep_runs --journal "$work/journal"

tests=crates/nd_test_ledger/out/nd_test_ledger_tests
number=1
refused=0
quiet=0
while [ "$number" -le 5000 ] && [ "$quiet" -lt 200 ]; do
  said=$(REFUSE=$number LD_PRELOAD="$work/refuse.so" "$tests" tests::refusing::allocations_refused 2>&1)
  status=$?
  if [ "$status" -ne 0 ]; then
    echo "dispatch: allocation $number refused: status $status"
    echo "$said"
    exit 1
  fi
  case $said in
    *'a call was refused'*) refused=$((refused + 1)) quiet=0 last=$number ;;
    *) [ "$refused" -gt 0 ] && quiet=$((quiet + 1)) ;;
  esac
  number=$((number + 1))
done
[ "$refused" -gt 0 ] || { echo "dispatch: no call was refused"; exit 1; }
echo "dispatch: $refused refusals of its calls, the last at allocation $last, and each left what it should"
