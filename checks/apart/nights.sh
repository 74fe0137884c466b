# The cases of apart.sh in which something fails, to be read by `.`.

# shellcheck shell=sh disable=SC2034,SC2016,SC2154  # what its reader has set and reads

# A path of this store whose files are gone, and one whose bytes are others: no machine is to blame for it.
damaged() {
  { machine one 2; machine two 2; } > "$folder/builders"
  told=''
  for how in gone other; do
    salt=damaged$how
    root=$(drv sourced) beside=$(drv steps)
    source=$(on here nix-store --query --references "$root" | grep -v '\.drv$')
    on here chmod u+w "$source"
    if [ "$how" = gone ]; then on here rm "$source"; else on here sh -c 'echo other > "$0"' "$source"; fi
    build here "damaged$how" -k --retries 0 "$root" "$beside"
    want "$how: status $status" is "$status" 1
    sound 19
    want "$how: $(downs) machines are down" is "$(downs)" 0
    want "$how: $(counted built) are built" is "$(counted built)" 18
    want "$how: it isn't said" has "$folder/$name.err" "$source"
    told="$told $(counted built)"
  done
  did="a path of this store with its files gone, or with other bytes: no machine is down, and$told of the 18 beside it are built"
}

# The key of root alone, and a plain user: copies are left to the daemon.
key() {
  { machine one 2; machine two 2; } > "$folder/builders"
  salt=key
  root=$(alices none)
  build alice key "$root"
  want "status $status" is "$status" 0
  sound 31
  want "it isn't said once" is "$(grep -c "the key /etc/nix/builder_key can't be read" "$folder/key.err")" 1
  want "$(downs) machines are down" is "$(downs)" 0
  did="a key that root alone may read, and a plain user: said once, and built as nix-store --realise builds it"
}

# A user that a machine doesn't trust, and one that this machine's daemon doesn't.
untrusted() {
  trusts one root machine
  machine one 2 builder > "$folder/builders"
  salt=untrusted
  build here untrustedbuild --retries 0 "$(drv plain)"
  want "a build: status $status" is "$status" 1
  sound 1
  want "a build: the cause doesn't name trusted-users" has "$folder/untrustedbuild.err" '^lost: .*trusted-users'
  build here untrusted "$(drv sourced)"
  trusts one 'root builder' machine
  want "status $status" is "$status" 1
  sound 1
  want "the cause doesn't name trusted-users" has "$folder/untrusted.err" '^down: .*trusted-users'
  trusts here root here
  machine one 2 > "$folder/builders"
  salt=untrustedalice
  build alice untrustedalice "$(alices sourced)"
  trusts here 'root builder alice' here
  want "alice: status $status" is "$status" 3
  want "alice: it isn't said" has "$folder/untrustedalice.err" 'takes no builders list from this user: name it in .trusted-users'
  did="a user that a machine doesn't trust, and one that this machine's daemon doesn't: both are told of trusted-users"
}
# A builder that makes another thing each time. Nix 2.8 can't look for that in a store that is a folder.
differs() {
  machine one 1 > "$folder/builders"
  salt=differs
  build here differs --option repeat 1 "$(drv differs)"
  want "status $status" is "$status" 1
  sound 1
  want "$(grep '^failed' "$folder/differs/history")" has "$folder/differs/history" '^failed 0 status 104$'
  did="a builder that makes another thing when it is repeated: status 104"
}

# Starts a machine anew that trusts these users: NAME USERS KIND.
trusts() {
  sed -i "s/^trusted-users = .*/trusted-users = $2/" "$folder/$1/etc-nix/nix.conf"
  stop_machine "$1"
  start_machine "$1" "$3"
}

# A machine whose Nix hangs in a build, behind a living sshd. Another one builds, once it doesn't answer.
hung() {
  { machine one 1 builder 9; machine two 1; } > "$folder/builders"
  salt=hung
  began=$(date +%s)
  begin here hung --connect-timeout 5 --reconnect 5 "$(drv slow)"
  soon 300 logged ' begin '
  sleep 3
  hang one
  finish 3000
  seconds=$(($(date +%s) - began))
  wake one
  want "status $status" is "$status" 0
  sound 2
  want "it isn't said" has "$folder/hung.err" "the machine doesn't answer any more"
  did="a machine whose nix-daemon and nix-store --serve hang: given up, and built on another one in $seconds s"
}
# Stops and goes on with all of a machine's Nix.
hang() { on "$1" pkill -STOP 'nix-(daemon|store)'; }
wake() { on "$1" pkill -CONT 'nix-(daemon|store)'; }

# The same with bounds on the build, and a copy to a machine that hangs.
late() {
  { machine one 1 root 9; machine two 1; } > "$folder/builders"
  salt=late
  began=$(date +%s)
  begin here late --timeout 20 --max-silent-time 15 "$(drv slow)"
  soon 300 logged ' begin '
  sleep 3
  on one pkill -STOP 'nix-store'
  finish 3000
  seconds=$(($(date +%s) - began))
  wake one
  want "status $status" is "$status" 0
  sound 2
  did="nix-store --serve stopped in a build with --timeout 20 and --max-silent-time 15: given up, and built on another one in $seconds s"
}

# A machine that vanishes from a plain user's run, whose build is the daemon's.
vanished() {
  { machine one 1 root 9; machine two 1; } > "$folder/builders"
  salt=vanished
  began=$(date +%s)
  begin alice vanished --connect-timeout 5 --reconnect 5 "$(alices slow)"
  soon 300 logged ' begin '
  sleep 3
  cut_off one
  finish 3000
  seconds=$(($(date +%s) - began))
  join one
  want "status $status" is "$status" 0
  sound 2
  did="a machine cut off from a plain user's build, by the daemon: given up, and built on another one in $seconds s"
}

# A copy to a machine that hangs.
stuck() {
  { machine one 1 builder 9; machine two 1; } > "$folder/builders"
  salt=stuck
  root=$(drv sourced)
  hang one
  began=$(date +%s)
  build here stuck --copy-timeout 10 "$root"
  seconds=$(($(date +%s) - began))
  wake one
  want "status $status" is "$status" 0
  sound 1
  want "it isn't said" has "$folder/stuck.err" 'no byte of a copy has moved for 10 seconds'
  did="a copy to a machine whose nix-daemon hangs: down behind 10 s without a byte, and built on another one in $seconds s"
}

# What a run of root's and one of a plain user's leave among the roots of the store; a root is given twice.
stale() {
  { machine one 2; machine two 2; } > "$folder/builders"
  for who in here alice; do
    salt=stale$who
    if [ "$who" = here ]; then root=$(drv sourced); else root=$(alices sourced); fi
    build "$who" "stale$who" "$root" "$root"
    want "$who: status $status" is "$status" 0
    want "$who: there is a second link" [ ! -e "$folder/$name/result-1" ]
    want "$who: $(wc -l < "$folder/$name.out") lines are printed" is "$(grep -c '^/nix/store/[^ ]*$' "$folder/$name.out")" 1
    left=$(on here sh -c 'for one in /nix/var/nix/gcroots/auto/*; do [ -L "$(readlink "$one")" ] || echo "$one"; done' | wc -l)
    want "$who: $left stale roots are left" is "$left" 0
  done
  did="a run of root's and one of a plain user's leave no stale root, and a root that is given twice has one link"
}

# A machine that is cut off for 45 seconds in its builds, and one that is started anew: the leases go on there.
away() {
  { machine one 2 root 9; machine two 1; } > "$folder/builders"
  salt=away
  begin here away --connect-timeout 5 "$(drv slow)" "$(drv wanting)"
  soon 300 logged ' begin '
  sleep 3
  cut_off one
  sleep 45
  join one
  finish 2400
  want "cut off: status $status" is "$status" 0
  sound 4
  want "cut off: $(lost) are lost" is "$(lost)" 0
  want "cut off: it isn't said" has "$folder/away.err" '^resumed: '
  want "cut off: $(counted rounds) rounds" is "$(counted rounds)" ''
  salt=reboot
  begin here reboot --connect-timeout 5 "$(drv slow)"
  soon 300 logged ' begin '
  sleep 3
  cut_off one
  stop_machine one
  sleep 20
  start_machine one machine
  join one
  finish 1800
  want "started anew: status $status" is "$status" 0
  sound 2
  want "started anew: $(lost) are lost" is "$(lost)" 0
  want "started anew: $(grep -c '^resumed' "$folder/reboot.err") go on" has "$folder/reboot.err" '^resumed: '
  did="a machine that is cut off for 45 s in two builds, and one that is started anew: nothing is lost, and one round"
}
lost() { cat "$folder/$name"/history.* 2> /dev/null | grep -c ' lost$'; }

# Another builders list with the same folder: what is left is another round, and what was built stays told.
lists() {
  machine one 2 > "$folder/builders"
  salt=lists
  root=$(drv steps)
  begin here lists "$root"
  soon 600 has "$folder/lists/journal.1" '^built [0-9]*'
  sleep 1
  on here pkill -INT -f "farm/build -o $folder/lists"
  finish 600
  { machine two 2; echo "ssh://root@nowhere x86_64-linux /etc/nix/builder_key 4 9"; } > "$folder/builders"
  build here lists "$root"
  want "status $status" is "$status" 0
  sound 18
  want "$(counted built) are built" is "$(counted built)" 18
  want "$(counted rounds) rounds" is "$(counted rounds)" 2
  for number in 1 2; do want "no history of round $number" has "$folder/lists/history.$number" '^built '; done
  want 'the machine that is not there is not down' has "$folder/lists.err" '^down: ssh://root@nowhere'
  one=$(grep -c 'ssh://root@one' "$folder/lists/report.json")
  want "$one are told of the first machine" [ "$one" -gt 0 ]
  did="another builders list with the same folder: round 2, and the report has all 18, $one of them built on the machines before"
}

# Two coordinators on one machine of three slots, of which each is killed in between and goes on.
shared() {
  machine one 3 > "$folder/builders"
  key=/etc/nix/alice_key machine one 3 > "$folder/builders.alice"
  : > "$folder/one/tmp/counting"
  on one sh -c 'while [ -e /tmp/counting ]; do ps -eo user:20= | grep "^nixbld" | sort -u | wc -l; sleep 0.05; done > /tmp/counts' &
  counter=$!
  salt=shared
  mine=$(drv hundred)
  salt=sharedalice
  hers=$(alices hundred)
  begin here shared1 --shared-slots "$mine"
  first=$builder
  list=builders.alice begin alice shared2 --shared-slots "$hers"
  second=$builder
  name=shared1
  soon 1200 has_built 20
  want "the first has built only $(built_by_now) when it is killed" has_built 20
  on here pkill -KILL -f "$folder/shared1"
  wait "$first"
  begin here shared1 --shared-slots "$mine"
  first=$builder
  name=shared2
  soon 1200 has_built 40
  want "the second has built only $(built_by_now) when it is killed" has_built 40
  on here pkill -KILL -f "$folder/shared2"
  wait "$second"
  list=builders.alice begin alice shared2 --shared-slots "$hers"
  finish 4800
  want "the second: status $status" is "$status" 0
  sound 100
  name=shared1 builder=$first
  finish 4800
  want "the first: status $status" is "$status" 0
  sound 100
  rm -f "$folder/one/tmp/counting"
  wait "$counter"
  most=$(sort -n "$folder/one/tmp/counts" | tail -n 1)
  want "$most builds at once" [ "$most" -le 3 ]
  want "only $most builds at once" [ "$most" -ge 2 ]
  want 'that it waits is not said' grep -q '^waits: all slots of ssh://root@one are taken' "$folder/shared1.err" "$folder/shared2.err"
  looks=$(wc -l < "$folder/one/tmp/counts")
  did="two coordinators on a machine of three slots, each killed in between: 200 builds, and $most at once at most in $looks looks"
}
# How many a run has built by now, by its journal; and whether it has so many.
built_by_now() { cat "$folder/$name"/journal.* 2> /dev/null | grep -c '^built '; }
has_built() { [ "$(built_by_now)" -ge "$1" ]; }
