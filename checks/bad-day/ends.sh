# The cases of bad-day.sh that are about how a builder ends, and about machines and agents that can't build; to be read by `.`.

# shellcheck shell=sh disable=SC2034,SC2154,SC2317  # its reader's words, and functions that it calls
# The number that a derivation has in the first round of the last run: DERIVATION.
number_of() { echo $(($(grep -n "^$1 " "$folder/$name/bundle.1" | cut -d: -f1) - 1)); }

# The ways in which a builder is to blame, and what is cancelled for one
statuses() {
  machine one 4 > "$folder/builders"
  salt=statuses
  build statuses --jobs 0 -k --max-silent-time 2 "$(drv silent)" "$(drv mistaken)" "$(drv nothing)" "$(drv broken)"
  want "status $status" is "$status" 1
  sound statuses 7
  while read -r attribute code; do
    number=$(number_of "$(drv "$attribute")")
    want "$attribute: $(grep "^failed $number " "$folder/statuses/history")" has "$folder/statuses/history" "^failed $number status $code\$"
  done << END
silent 101
mistaken 102
nothing 100
END
  want "broken: $(grep ' status 3$' "$folder/statuses/history")" has "$folder/statuses/history" '^failed [0-9]* status 3$'
  want "$(counted cancelled statuses) are cancelled" is "$(counted cancelled statuses)" 1
  want "$(counted built statuses) are built beside" is "$(counted built statuses)" 2
  machine one 1 > "$folder/builders"
  build stopped --jobs 0 "$(drv barred)"
  want "without -k: status $status" is "$status" 1
  sound stopped 16
  want "without -k: $(counted cancelled stopped) are cancelled" is "$(counted cancelled stopped)" 15
  did="a builder that is silent 101, with another hash 102, or without its output 100; without -k all else is cancelled"
}

# The builder itself is killed
killed_builder() {
  { machine one 1; machine two 1; } > "$folder/builders"
  salt=killbuilder
  begin killbuilder --jobs 0 "$(drv slow)"
  is_building() { [ -n "$(building)" ]; }
  want 'nothing was begun' soon 600 is_building
  # shellcheck disable=SC2046  # process numbers
  kill -9 $(building)
  want 'it hangs' soon 900 ended
  wait "$builder"
  status=$?
  want "status $status" is "$status" 0
  sound killbuilder 2
  want 'it is not lost' has "$folder/killbuilder/history.1" '^failed [0-9]* lost$'
  want 'lost without its cause' has "$folder/killbuilder.err" '^lost: slow-killbuilder .*due to signal 9'
  want "$(counted rounds killbuilder) rounds" is "$(counted rounds killbuilder)" 2
  did="kill -9 of a builder: no fault of its own, lost, and built in round 2"
}

# A key that isn't there, on the one machine that may build
keyless() {
  machine one 2 | sed "s|$folder/key|$folder/no-key|" > "$folder/builders"
  salt=keyless
  build keyless --jobs 0 --connect-timeout 5 "$(drv plain)"
  want "status $status" is "$status" 1
  sound keyless 1
  want "it isn't said once" is "$(grep -c "there is no key $folder/no-key, so ssh://root@localhost.* can't be logged in to" "$folder/keyless.err")" 1
  want 'the machine is not down' has "$folder/keyless/history" '^down '
  want 'what no machine that is up may build is not nobuilder' has "$folder/keyless/report.json" '"nobuilder"'
  did="a key that isn't there: said once, the machine is down, and what no other one may build is nobuilder"
}

# Agents that tell what no build may have made: of `plain` other references, of `nothing` no list for its output
told_wrongly() {
  machine one 1 > "$folder/builders"
  salt=wrongly
  lie plain "built o $(output "$(drv nothing)")"
  want "other references: status $status" is "$status" 1
  want "other references: $(grep '^failed' "$folder/plain/history")" has "$folder/plain/history" '^failed 0 references$'
  want "other references: the report doesn't say it" has "$folder/plain/history" "^drv 0 failed $(drv plain)\$"
  lie nothing built
  want "no list: status $status" is "$status" 1
  want "no list: $(grep '^failed' "$folder/nothing/history")" has "$folder/nothing/history" '^failed 0 lost$'
  did="agents that tell references of something else, or no list for an output: references and lost, and the report has them as failed"
}
# Builds one derivation by an agent that gives this answer: ATTRIBUTE ANSWER.
lie() {
  farm/gather -o "$folder/$1" "$(drv "$1")"
  mkdir "$folder/$1/pipes"
  mkfifo "$folder/$1/pipes/1.0.calls" "$folder/$1/pipes/1.0.answers"
  while read -r call _; do
    case $call in build) echo "$2" ;; *) echo yes ;; esac
  done < "$folder/$1/pipes/1.0.calls" > "$folder/$1/pipes/1.0.answers" &
  agent=$!
  status=0
  timeout 60 "$NIX_DISPATCH" run --builders "@$folder/builders" --jobs 0 --bundle "$folder/$1/bundle" --info "$folder/$1/info" \
    --agents "$folder/$1/pipes" --report > "$folder/$1/history" 2> "$folder/$1.err" || status=$?
  wait "$agent"
}
