# The cases of bad-day.sh that end a run by a signal or kill it, and what is looked at behind the same command; to be read by `.`.

# shellcheck shell=sh disable=SC2034,SC2154,SC2317  # its reader's words, and functions that it calls
# Which builds of a folder have ended well so far; that of these none has begun since; and that its run was gone on with.
mark() {
  name=$1
  awk '$4 == "end" && $6 == 0 { print $5 }' "$folder/$name/events" | sort -u > "$folder/$name.ended"
  marked=$(wc -l < "$folder/$name/events")
}
none_again() {
  # a run that begins anew has new events
  has "$folder/$name.err" 'goes on' || marked=0
  again=$(tail -n "+$((marked + 1))" "$folder/$name/events" | awk '$4 == "begin" { print $5 }' | sort | comm -12 - "$folder/$name.ended")
  want "$1: what had ended is built again: $again" is "$again" ''
}
gone_on() {
  want "$1: it isn't said" has "$folder/$name.err" 'goes on'
  none_again "$1"
  twice=$(cat "$folder/$name"/journal.[0-9]* | awk '$1 == "built" { print }' | sort | uniq -d)
  want "$1: built twice: $twice" is "$twice" ''
  want "$1: $name is unfinished" [ ! -e "$folder/$name/.unfinished" -a ! -e "$folder/$name/gcroots" ]
}

# What is looked at behind a run that was ended by a signal: nothing goes on, here or there.
quiet() { soon 200 all_ended && soon 100 unconnected; }
unconnected() { [ -z "$(below_with "$(cat "$folder/sshd.pid")" 'sshd: root')" ]; }

# 7: runs that are ended by a signal, and the same folder again
interrupted() {
  machine one 2 > "$folder/builders"
  for signal in INT TERM KILL; do
    salt=int$signal
    rm -rf "$folder/stopped"
    root=$(drv steps)
    begin stopped --jobs 0 "$root"
    soon 300 logged ' end '
    sleep 1
    case $signal in
      INT) kill -INT "-$builder" ;;
      *) kill -"$signal" "$builder" ;;
    esac
    want "$signal: it goes on" soon 300 ended
    wait "$builder" 2> /dev/null
    status=$?
    mark stopped
    case $signal in
      KILL) want 'KILL: there is a report' [ ! -s "$folder/stopped/report" ] ;;
      *)
        want "$signal: status $status" is "$status" "$([ "$signal" = INT ] && echo 130 || echo 143)"
        want "$signal: there is no history" [ -s "$folder/stopped/history" ]
        want "$signal: the report doesn't say it" has "$folder/stopped/report" '^interrupted '
        want "$signal: nothing counts as leased" [ "$(counted leased stopped || echo 0)" -gt 0 ]
        sound stopped 18 ;;
    esac
    want "$signal: something goes on behind it" quiet
    build stopped --jobs 0 "$root"
    want "$signal: again in the folder, it ends with status $status" is "$status" 0
    want "$signal: again in the folder, the report says it" [ "$(grep -c '^interrupted' "$folder/stopped/report")" -eq 0 ]
    sound stopped 18
    gone_on "$signal"
  done
  did="Ctrl-C, TERM and kill -9 of farm/build: a legal history with its open leases; then the same command goes on"
}

# 7: the program is killed
killed_run() {
  machine one 2 > "$folder/builders"
  for signal in KILL TERM; do
    salt=run$signal
    root=$(drv steps)
    begin "run$signal" --jobs 0 "$root"
    soon 300 has "$folder/$name/journal.1" '^built '
    # shellcheck disable=SC2046  # process numbers
    kill -"$signal" $(below_with "$builder" 'run --agents')
    want "$signal: it goes on" soon 300 ended
    wait "$builder" 2> /dev/null
    status=$?
    want "$signal: status $status" is "$status" "$([ "$signal" = KILL ] && echo 5 || echo 143)"
    want "$signal: the report doesn't say it" has "$folder/$name/report" "^interrupted $signal\$"
    want "$signal: the report doesn't say what was built" [ "$(counted built "$name" || echo 0)" -gt 0 ]
    sound "$name" 18
    want "$signal: something goes on behind it" quiet
    mark "$name"
    build "$name" --jobs 0 "$root"
    want "$signal: again in the folder, it ends with status $status" is "$status" 0
    sound "$name" 18
    gone_on "$signal"
  done
  did="kill -9 and TERM of run: status 5 and 143, a report of what was built, and the same command goes on"
}

# All that farm/build has started, and that itself, at once.
kill_all() {
  left=$(readlink "$folder/$name/.agents")
  for _ in 1 2; do
    # shellcheck disable=SC2046  # process numbers
    kill -9 "$builder" $(below "$builder") 2> /dev/null
    kill -9 "-$builder" 2> /dev/null
  done
  wait "$builder" 2> /dev/null
  mark "$name"
}

# 7: everything is killed at once, at the first build, in the middle, and twice
killed_all() {
  machine one 2 > "$folder/builders"
  for moment in first middle twice; do
    salt=all$moment
    root=$(drv steps)
    begin "all$moment" --jobs 0 "$root"
    soon 300 logged ' begin '
    if [ "$moment" != first ]; then soon 300 logged ' end .* 0$'; sleep 1; fi
    kill_all
    if [ "$moment" = twice ]; then
      had=$(wc -l < "$folder/$name.ended")
      begin "all$moment" --jobs 0 "$root"
      more() { [ "$(grep -c ' end .* 0$' "$folder/$name/events")" -gt $((had + 2)) ]; }
      soon 300 more
      kill_all
    fi
    build "all$moment" --jobs 0 "$root"
    want "$moment: status $status" is "$status" 0
    sound "all$moment" 18
    gone_on "$moment"
    want "$moment: more than one round" is "$(counted rounds "all$moment")" ''
    want "$moment: $left is left" [ ! -e "$left" ]
    want "$moment: something goes on behind it" quiet
    want "$moment: trace.json is none" python3 -m json.tool "$folder/all$moment/trace.json" /dev/null
    want "$moment: there is no result" nix-store --check-validity "$(readlink "$folder/all$moment/result" 2> /dev/null || echo /nix/store/none)" 2> /dev/null
  done
  did="kill -9 of everything, at the first build, in the middle, and twice: the same command goes on, and no build that had ended is done again"
}

# The processes of this case's builder that takes a while.
building() {
  for one in $(grep -l -s -e '[e]cho a line; sleep 10' /proc/[0-9]*/cmdline); do
    one=${one%/cmdline}
    ! grep -q -s -e "slow-$salt" "$one/environ" || echo "${one#/proc/}"
  done
}

# 7: the farm, its guard and the program are killed, and not what they had begun: that ends by itself, and while it does
# it isn't built a second time beside it
killed_half() {
  for where in there here; do
    salt=half$where
    jobs=0
    machine one 1 > "$folder/builders"
    if [ "$where" = here ]; then : > "$folder/builders"; jobs=1; fi
    root=$(drv slow)
    begin "half$where" --jobs "$jobs" "$root"
    soon 300 logged ' begin '
    is_building() { [ -n "$(building)" ]; }
    soon 100 is_building
    want "$where: nothing was begun" is_building
    sleep 1
    # shellcheck disable=SC2046  # process numbers
    kill -9 $(below_with "$builder" 'run --agents') $(below_with "$builder" 'nix_farm/guard') "$builder"
    wait "$builder" 2> /dev/null
    mark "half$where"
    while :; do
      # shellcheck disable=SC2046  # process numbers
      echo $(building)
      sleep 0.1
    done > "$folder/half$where.building" &
    looking=$!
    build "half$where" --jobs "$jobs" "$root"
    kill "$looking"
    want "$where: status $status" is "$status" 0
    sound "half$where" 2
    gone_on "$where"
    want "$where: it is built twice at once" is "$(grep -c ' ' "$folder/half$where.building")" 0
    want "$where: something goes on behind it" quiet
  done
  did="kill -9 of the farm and the program alone, on a machine and here: what they had begun ends, and isn't done twice at once"
}

# 7: the same in the second round, whose first one has lost something
killed_later() {
  { machine one 1; machine two 1; } > "$folder/builders"
  salt=later
  root=$(drv slow)
  begin later --jobs 0 --reconnect 0 "$root"
  soon 300 logged ' begin '
  soon 100 serving
  # shellcheck disable=SC2046  # process numbers
  kill -9 $(below_with "$(cat "$folder/sshd.pid")" 'nix-store --serve') 2> /dev/null
  second_round() { grep -q ' - - round 2 ' "$folder/$name/events" && [ "$(grep -c ' begin ' "$folder/$name/events")" -gt 1 ]; }
  soon 300 second_round
  kill_all
  build later --jobs 0 --reconnect 0 "$root"
  want "status $status" is "$status" 0
  sound later 2
  gone_on 'in the second round'
  want "$(counted rounds later) rounds" is "$(counted rounds later)" 2
  want 'the first history has no lost' has "$folder/later/history.1" '^failed [0-9]* lost$'
  did="kill -9 of everything in the second round: gone on with there, and the report counts two"
}

# 7: what isn't gone on from: other words, another journal, a store that lacks what was built
begun_anew() {
  machine one 2 > "$folder/builders"
  for reason in words journal store; do
    salt=anew$reason
    root=$(drv steps)
    begin "anew$reason" --jobs 0 "$root"
    soon 300 logged ' end .* 0$'
    soon 300 has "$folder/$name/journal.1" '^built '
    sleep 1
    kill_all
    want "$reason: something goes on behind it" soon 200 all_ended
    more=''
    case $reason in
      words)
        said='other words (keep-going)'
        more='-k' ;;
      journal)
        said="can't be gone on from.*BadLine"
        echo nothing >> "$folder/$name/journal.1" ;;
      store)
        said="isn't all there"
        # with what refers to it, which may have come back and isn't noted yet: Nix deletes nothing that a valid path refers to
        # shellcheck disable=SC2046  # store paths
        nix-store --delete --ignore-liveness $(xargs nix-store --query --outputs < "$folder/$name.ended" |
          xargs nix-store --query --referrers-closure | sort -u) > /dev/null 2>&1
        : > "$folder/$name.ended" ;;
    esac
    # shellcheck disable=SC2086  # one word or none
    build "anew$reason" --jobs 0 $more "$root"
    want "$reason: status $status" is "$status" 0
    want "$reason: it isn't said" has "$folder/$name.err" "$said"
    sound "anew$reason" "$(counted total "anew$reason")"
    none_again "$reason"
  done
  did="with other words, another journal or without what was built it says so and begins anew; what is valid isn't built again"
}
