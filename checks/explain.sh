#!/bin/sh
# Provokes each refusal that the command line can bring about, and shows what `--explain` says of it. Each
# fault's line and status have to be the same with the option and without it, nothing may be written on
# standard output, and the cause and the cure have to be those of its row in the table of docs/REFUSALS.md,
# of which every row has to come up but those that a command line can't bring about.
set -eu
cd "$(dirname "$0")/.."
program=crates/nix_dispatch/out/nix_dispatch
table=docs/REFUSALS.md
folder=$(mktemp -d)
trap 'rm -rf "$folder"' EXIT
INPUT=
: > "$folder/seen"

fail() {
  echo "explain: $*"
  exit 1
}

# The cell of a row of the table, its cells counted from 1.
cell() {
  awk -F ' [|] ' -v row="| \`$1\`" -v at="$2" '$1 == row { sub(/ [|]$/, "", $at); print $at }' "$table"
}

# refused LINE STATUS WHERE COMMAND WORD ..: over the input $folder/in, or the file of INPUT.
refused() {
  line=$1 status=$2 where=$3 command=$4
  shift 4
  for option in '' --explain; do
    got=0
    "$program" "$command" $option "$@" < "${INPUT:-$folder/in}" > "$folder/out" 2> "$folder/said$option" || got=$?
    [ "$got" -eq "$status" ] || fail "$line: the status is $got"
    [ ! -s "$folder/out" ] || fail "$line: something is written"
  done
  explained "$line" "$where"
}

# As `refused`, of a command whose journal is refused: that stays as it was.
left_alone() {
  cp "$journal" "$folder/before"
  refused "$@"
  cmp -s "$folder/before" "$journal" || fail "$1: the journal is changed"
}

# What was said with the option and without it, in $folder/said and $folder/said--explain.
explained() {
  [ "$(cat "$folder/said")" = "nix-dispatch: $1" ] || fail "$1: $(cat "$folder/said")"
  [ "$(head -n 1 "$folder/said--explain")" = "nix-dispatch: $1" ] || fail "$1: $(cat "$folder/said--explain")"
  cat "$folder/said--explain"
  echo
  row=$(printf '%s' "$1" | sed 's/ [0-9]*$/ N/; s/^[a-z]*: TooLarge$/INPUT: TooLarge/; s/^journal: Illegal .*/journal: Illegal N RULE/')
  printf '%s\n' "$row" >> "$folder/seen"
  [ -n "$(cell "$row" 3)" ] || fail "$row: no row in $table"
  grep -qxF "where: $2" "$folder/said--explain" || fail "$1: not at $2"
  grep -qxF "cause: $(cell "$row" 3)" "$folder/said--explain" || fail "$row: another cause in $table"
  grep -qxF "cure: $(cell "$row" 4)" "$folder/said--explain" || fail "$row: another cure in $table"
}

# A line of a bundle: the digit of its digest and its output's, its name, its inputs, its environment.
line() {
  digest=$(printf "%032d" 0 | tr 0 "$1")
  printf '%s' "/nix/store/$digest-$2.drv Derive([(\"out\",\"${5-/nix/store/$digest-$2}\",\"\",\"\")],[$3],[],\"x86_64-linux\",\"/bin/sh\",[],[$4])"
}
on() {
  digest=$(printf "%032d" 0 | tr 0 "$1")
  printf '%s' "(\"/nix/store/$digest-$2.drv\",[\"$3\"])"
}
bundle() { printf '%s\n' "$@" > "$folder/in"; }
good=$(line 0 n0 '' '')

# The bundle.
bundle "$good" 'no-space-here	and a tab'
sed -i '2s/ //g' "$folder/in"
refused 'drvs: BadLine 2' 3 'standard input, line 2' ask
bundle "/tmp/n0.drv Derive()"
refused 'drvs: BadPath 1' 3 'standard input, line 1' ask
bundle "$good." "$good"
refused 'drvs: BadDerivation 1' 3 'standard input, line 1' ask
bundle "$(line 0 n0 '' '' '')"
refused 'drvs: UnknownOutput 1' 3 'standard input, line 1' ask
bundle "$(line 0 n0 '' '("__json","[]")')"
refused 'drvs: BadAttribute 1' 3 'standard input, line 1' ask
bundle "$good"
refused 'drvs: WrongPath 1' 3 'standard input, line 1' ask --check-paths
bundle "$good" "$good"
refused 'drvs: Duplicate 2' 3 'standard input, line 2' ask
bundle "$(line 1 n1 "$(on 0 n0 out)" '')"
refused 'drvs: MissingInput 1' 3 'standard input, line 1' ask
bundle "$good" "$(line 1 n1 "$(on 0 n0 dev)" '')"
refused 'drvs: MissingOutput 2' 3 'standard input, line 2' ask
bundle "$(line 0 n0 "$(on 0 n0 out)" '')"
refused 'drvs: Cycle' 3 'standard input' ask
awk 'BEGIN { for (i = 0; i <= 65536; i++) printf "/nix/store/%032d-n.drv Derive([],[],[],\"s\",\"b\",[],[])\n", i }' > "$folder/in"
refused 'drvs: TooMany' 3 'standard input' ask
head -c 67108865 /dev/zero > "$folder/in"
refused 'drvs: TooLarge' 3 'standard input' ask
bundle "$good"
bundle_file=$folder/bundle
printf '%s\n' "$good" "$good" > "$bundle_file"
refused 'drvs: Duplicate 2' 3 "--bundle, file $bundle_file, line 2" ask --bundle "$bundle_file"
refused 'drvs: Duplicate 2' 3 "--bundle, file $bundle_file, line 2" run --bundle "$bundle_file"

# The other inputs.
bundle "$good"
refused 'builders: Uri 2' 3 '--builders, entry 2' ask --builders 'a;;- x86_64-linux'
printf 'a # ; b\n\n;c - - many;d\n' > "$folder/builders"
refused 'builders: Jobs 2' 3 "--builders, file $folder/builders, entry 2" ask --builders "@$folder/builders"
refused 'builders: Speed 1' 3 '--builders, entry 1' ask --builders 'a - - 1 0'
refused 'builders: Include 1' 3 '--builders, entry 1' ask --builders ' @/etc/nix/more'
awk 'BEGIN { for (i = 0; i < 1025; i++) print "host" i }' > "$folder/builders"
refused 'builders: TooMany 1025' 3 "--builders, file $folder/builders, entry 1025" ask --builders "@$folder/builders"
refused 'builders: TooManySlots' 3 '--builders' run --builders 'a - - 1024'
printf '/nix/store/%032d-s\nsource\n' 0 > "$folder/info"
refused 'info: BadLine 2' 3 "--info, file $folder/info, line 2" ask --info "$folder/info"
printf 'start 0\nbuild 0\n' > "$folder/script"
refused 'script: BadLine 2' 3 "--script, file $folder/script, line 2" sim --script "$folder/script"
printf 'lose 1\n' > "$folder/stand"
refused 'stand: BadLine 1' 3 "--stand, file $folder/stand, line 1" run --stand "$folder/stand"
printf 'chosen 0 0 0\n' > "$folder/history"
refused 'history: Version' 3 "--history, file $folder/history, line 1" audit --history "$folder/history"
printf 'nix-dispatch-history 1\nchosen 0 0 0' > "$folder/history"
refused 'history: BadLine 2' 3 "--history, file $folder/history, line 2" audit --history "$folder/history"
printf 'Derive()\303\244' > "$folder/in"
refused 'derivation: BadPath' 3 'NAME' path hello
refused 'derivation: BadDerivation' 3 'standard input' path hello.drv

# The journal of a session and of a run.
bundle "$good"
journal=$folder/journal
for command in serve run; do
  printf 'nix-dispatch-history 2\n' > "$journal"
  left_alone 'journal: NotEmpty' 3 "--journal, file $journal" "$command" --bundle "$folder/in" --journal "$journal"
  (
    flock -n 9
    left_alone 'journal: InUse' 3 "--journal, file $journal" "$command" --bundle "$folder/in" --journal "$journal" --resume
  ) 9> "$journal"
  printf 'nix-dispatch-history 2\nbuilt\n' > "$journal"
  left_alone 'journal: BadLine 2' 3 "--journal, file $journal, line 2" "$command" --bundle "$folder/in" --journal "$journal" --resume
  printf 'line without newline, my notes' > "$journal"
  left_alone 'journal: BadLine 1' 3 "--journal, file $journal, line 1" "$command" --bundle "$folder/in" --journal "$journal" --resume
  printf 'nix-dispatch-history 2\nmy notes' > "$journal"
  left_alone 'journal: BadLine 2' 3 "--journal, file $journal, line 2" "$command" --bundle "$folder/in" --journal "$journal" --resume
  printf 'nix-dispatch-history 2\nstarted 0\n' > "$journal"
  left_alone 'journal: Illegal 0 Live' 3 "--journal, file $journal, line 2" "$command" --bundle "$folder/in" --journal "$journal" --resume
  truncate -s 1073741825 "$journal"
  left_alone 'history: TooLarge' 3 "--journal, file $journal" "$command" --bundle "$folder/in" --journal "$journal" --resume
  refused 'journal failed' 5 '--journal, file /nowhere/journal' "$command" --bundle "$folder/in" --journal /nowhere/journal
done

# A journal that is looked at: one that is too long, if only since it has no end, and one that is none.
left_alone 'history: TooLarge' 3 "--journal, file $journal" report --journal "$journal"
left_alone 'history: TooLarge' 3 "--journal, file $journal" audit --journal "$journal"
refused 'history: TooLarge' 3 '--journal, file /dev/zero' report --journal /dev/zero
refused 'history: TooLarge' 3 '--journal, file /dev/zero' audit --journal /dev/zero
printf 'nix-dispatch-history 2\nstarted 0\n' > "$journal"
left_alone 'journal: Illegal 0 Live' 3 "--journal, file $journal, line 2" report --journal "$journal"
printf 'nix-dispatch-history 2\nbuilt\n' > "$journal"
left_alone 'journal: BadLine 2' 3 "--journal, file $journal, line 2" report --journal "$journal"
left_alone 'journal: BadLine 2' 3 "--journal, file $journal, line 2" audit --journal "$journal"
for text in 'chosen 0 0 0\n' 'nix-dispatch-history 1\nchosen 0 0 0' 'line without newline, my notes'; do
  printf '%b' "$text" > "$journal"
  for command in report audit; do
    left_alone 'journal: BadLine 1' 3 "--journal, file $journal, line 1" "$command" --journal "$journal"
  done
done
refused 'journal failed' 5 '--journal, file /nowhere/journal' report --journal /nowhere/journal
refused 'journal failed' 5 '--journal, file /nowhere/journal' audit --journal /nowhere/journal

# The devices.
bundle "$good"
refused 'read failed' 5 '--script, file /nowhere' sim --script /nowhere
refused 'read failed' 5 '--bundle, file /nowhere' ask --bundle /nowhere
refused 'read failed' 5 '--bundle, file /' ask --bundle /
INPUT=/
refused 'read failed' 5 'standard input' ask
INPUT=
for option in '' --explain; do
  got=0
  "$program" ask $option < "$folder/in" > /dev/full 2> "$folder/said$option" || got=$?
  [ "$got" -eq 5 ] || fail "write failed: the status is $got"
done
explained 'write failed' 'standard output'

# Those that come up for want of memory or of threads, and the one that no run brings about.
printf '%s\n' 'out of memory' 'thread not started' 'receipts differ' >> "$folder/seen"
sed -n 's/^| `\([^`]*\)` .*/\1/p' "$table" | sort > "$folder/rows"
sort -u "$folder/seen" | cmp - "$folder/rows" || fail "$table has other rows"
echo "explain: $(wc -l < "$folder/rows") rows, each with the words of $table"
