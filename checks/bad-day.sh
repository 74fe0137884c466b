#!/bin/sh
# Builds graphs on machines that have a bad day, with real Nix stores behind an sshd that has the system's own
# configuration, and looks at what farm/build makes of it:
#
#     checks/bad-day.sh [-k] [CASE ..]
#
# A case is a function below, in bad-day/killed.sh or in bad-day/ends.sh; without a name all are run. Each says in a line what it saw. FARM
# names the folder of the scripts, which is farm where it isn't set, and NIX_DISPATCH the program. It needs Nix 2.8 or
# later, a static busybox, Python 3, OpenSSH's sshd and root, and installs nothing. The sshd listens on
# port 2223 of 127.0.0.1, or on that of PORT, and ends with the script. With -k the folder with all that it made stays.
set -u

keep=''
if [ "${1-}" = -k ]; then keep=yes; shift; fi
for command in nix-store busybox python3 ssh ssh-keygen flock; do
  command -v "$command" > /dev/null || { echo "bad-day: there is no $command (Debian: nix-bin, busybox-static, python3, openssh-server)" >&2; exit 2; }
done
cd "$(dirname "$0")/.." || exit 2
farm=${FARM-farm}
export NIX_DISPATCH="${NIX_DISPATCH-$PWD/crates/nix_dispatch/out/nix_dispatch}"
graph=checks/bad-day/graph.nix
folder=$(mktemp -d /tmp/bad-day.XXXXXX)
# shellcheck source=checks/bad-day/park.sh
. checks/bad-day/park.sh
# shellcheck disable=SC2317  # the trap calls it
clean_up() {
  umount "$folder"/tiny* 2> /dev/null
  if [ -n "$keep" ]; then echo "bad-day: $folder"; kill "$(cat "$folder/sshd.pid")"; return; fi
  end_park
}
trap clean_up EXIT
for store in local one two; do make_store "$store"; done

# The derivation of an attribute, with the salt of the case; it is a root of no collection.
drv() {
  nix-instantiate "$graph" --argstr salt "$salt" -A "$1" 2> /dev/null
}
output() {
  nix-store --query --outputs "$1"
}

# NAME MACHINES-OPTIONS ..: runs farm/build into a folder of the name. `status` and `seconds` are what came of it.
build() {
  name=$1
  shift
  begun=$(date +%s%3N) before=$(spent_by_children)
  status=0
  timeout 300 "$farm/build" -o "$folder/$name" --builders "@$folder/builders" "$@" > "$folder/$name.out" 2> "$folder/$name.err" || status=$?
  took=$(($(date +%s%3N) - begun)) used=$(($(spent_by_children) - before))
}
# The milliseconds that ended children of this script have had of a processor; a hundredth of a second is a tick.
spent_by_children() { awk '{ sub(/.*\) /, ""); print ($14 + $15) * 10 }' "/proc/$$/stat"; }

# The same in the background, in a group of its own that Ctrl-C reaches as at a terminal.
begin() {
  name=$1
  shift
  setsid env --default-signal=INT,TERM "$farm/build" -o "$folder/$name" --builders "@$folder/builders" "$@" \
    > "$folder/$name.out" 2> "$folder/$name.err" < /dev/null &
  builder=$!
}

# Waits so many tenths of a second at most for a command to succeed.
soon() {
  left=$1
  shift
  while [ "$left" -gt 0 ]; do
    if "$@" > /dev/null 2>&1; then return 0; fi
    sleep 0.1
    left=$((left - 1))
  done
  return 1
}
ended() { ! kill -0 "$builder" 2> /dev/null; }
logged() { cat "$folder/$name"/*.log 2> /dev/null | grep -q -e "$1"; }

# Whether the case goes on; else it says what is wrong.
wrong=''
want() {
  what=$1
  shift
  if "$@"; then return 0; fi
  wrong="$wrong; $what"
  return 1
}
is() { [ "$1" = "$2" ]; }
has() { grep -q -e "$2" "$1" 2> /dev/null; }

# Each history of the run is legal, and the counts of the report are the graph's: NAME DERIVATIONS.
sound() {
  for history in "$folder/$1"/history*; do
    [ -s "$history" ] || continue
    verdict=$(echo "$history" | sed 's|/history\([^/]*\)$|/verdict\1|')
    want "$history isn't legal" has "$verdict" '^legal '
  done
  counts=$(awk '/^(waiting|leased|built|failed|cancelled) / { sum += $2 } /^total / { total = $2 } END { print total + 0, sum + 0 }' "$folder/$1/report" 2> /dev/null)
  want "the counts of $1 are $counts and not $2" is "$counts" "$2 $2"
  [ "$farm" != farm ] || want "the form of $1/report.json is another: $(python3 checks/bad-day/form.py "$folder/$1/report.json" "$2" 2>&1)" \
    python3 checks/bad-day/form.py "$folder/$1/report.json" "$2" > /dev/null 2>&1
}
counted() { sed -n "s/^$1 //p" "$folder/$2/report" 2> /dev/null; }

# 1: a machine with many slots, behind an sshd with its own MaxStartups
slots() {
  machine one 24 > "$folder/builders"
  for run in 1 2 3; do
    salt=slots$run
    connections=$(grep -c Accepted "$folder/sshd.log")
    build "slots$run" --jobs 0 "$(drv many)"
    connections=$(($(grep -c Accepted "$folder/sshd.log") - connections))
    want "run $run: status $status, $(counted built "slots$run") of 49 built" is "$status" 0
    sound "slots$run" 49
  done
  did="24 slots on one machine, 49 derivations: status 0 in three runs of three, the last by $connections connections"
}

# A proxy before the sshd, and a machine behind it: REFUSED; the file `stall` makes it silent.
proxied() {
  rm -f "$folder/stall" "$folder/proxy.port"
  python3 checks/bad-day/proxy.py "$port" "$1" "$folder/stall" > "$folder/proxy.port" &
  proxy=$!
  soon 100 [ -s "$folder/proxy.port" ]
  # Nix tells ssh a host key by the host's name, without the port.
  printf 'Host proxied\nHostKeyAlias proxied\nHostName 127.0.0.1\nPort %s\nHost localhost\nHostKeyAlias localhost\nPort %s\n' "$(cat "$folder/proxy.port")" "$port" > "$folder/ssh_config"
  options=$NIX_SSHOPTS
  NIX_SSHOPTS="-F $folder/ssh_config"
}
end_proxy() {
  kill "$proxy"
  wait "$proxy" 2> /dev/null
  NIX_SSHOPTS=$options
}

# 1: connections that are refused at first
refused() {
  proxied 3
  machine one 4 | sed 's/root@localhost/root@proxied/' > "$folder/builders"
  salt=refused
  build refused --jobs 0 "$(drv broken)"
  end_proxy
  want "status $status" is "$status" 1
  sound refused 4
  want 'the machine is down' is "$(grep -c '^down ' "$folder/refused/history")" 0
  want 'nothing was built there' has "$folder/refused/history" '^failed [0-9]* status 3$'
  did="a machine that refuses three connections is asked again, and isn't down"
}

# 8: a machine that falls silent in a build
stalled() {
  proxied 0
  { machine one 1 | sed 's/root@localhost/root@proxied/; s/ 1 1 - / 1 9 - /'; machine two 1; } > "$folder/builders"
  salt=stalled
  more=''
  [ "$farm" != farm ] || more='--connect-timeout 3 --reconnect 0'
  # shellcheck disable=SC2086  # words
  begin stalled --jobs 0 $more "$(drv slow)"
  soon 300 serving
  sleep 1
  : > "$folder/stall"
  want 'the build hangs' soon 900 ended || kill "$builder"
  wait "$builder"
  status=$?
  end_proxy
  want "status $status" is "$status" 0
  sound stalled 2
  want 'nothing was lost' has "$folder/stalled/history.1" '^failed [0-9]* lost$'
  want 'the machine is not down in the next round' has "$folder/stalled/history.2" '^down '
  did="a machine that falls silent in a build: lost after three times the bound, then down, and another one builds"
}

# 2: the machine's process is killed in a build, which is built elsewhere in the next round
lost() {
  { machine one 1; machine two 1; } > "$folder/builders"
  salt=lost
  more=''
  [ "$farm" != farm ] || more='--reconnect 0'
  # shellcheck disable=SC2086  # words
  begin lost --jobs 0 $more "$(drv slow)"
  soon 300 logged ' begin '
  sleep 3
  # shellcheck disable=SC2046  # process numbers
  kill -9 $(below_with "$(cat "$folder/sshd.pid")" 'nix-store --serve') 2> /dev/null
  soon 600 ended
  wait "$builder"
  status=$?
  want "status $status" is "$status" 0
  sound lost 2
  want 'the first history has no lost' has "$folder/lost/history.1" '^failed [0-9]* lost$'
  want 'there is no second round' has "$folder/lost/history.2" '^built '
  did="the remote nix-store killed in a build: lost, and built in round 2"
}

# 2, and the machine is asked again: the lease goes on
resumed() {
  machine one 1 > "$folder/builders"
  salt=resumed
  begin resumed --jobs 0 "$(drv slow)"
  soon 300 logged ' begin '
  sleep 3
  # shellcheck disable=SC2046  # process numbers
  kill -9 $(below_with "$(cat "$folder/sshd.pid")" 'nix-store --serve') 2> /dev/null
  soon 600 ended
  wait "$builder"
  status=$?
  want "status $status" is "$status" 0
  sound resumed 2
  want 'something is lost' is "$(grep -c ' lost$' "$folder/resumed/history")" 0
  want "it isn't said" has "$folder/resumed.err" '^resumed: slow-resumed'
  did="the remote nix-store killed in a build: the machine is asked again, and the lease goes on"
}

# Collects the garbage of a store, so many times.
collect() {
  for _ in 1 2 3 4 5 6; do
    sleep 1
    NIX_REMOTE=$1 timeout 60 nix-store --gc > /dev/null 2>&1
  done
}

# 3: collections here in the middle of a run
collected() {
  machine one 2 > "$folder/builders"
  salt=collected
  root=$(drv steps)
  begin collected --jobs 1 "$root"
  soon 300 logged ' begin '
  collect "$folder/local" &
  soon 1200 ended
  wait "$builder"
  status=$?
  wait $!
  want "status $status, $(counted built collected) built, $(grep -c lost "$folder/collected/history") lost" is "$status" 0
  sound collected 18
  nix-store --gc > /dev/null 2>&1
  want 'what was built is collected behind the run' nix-store --check-validity "$(readlink "$folder/collected/result" 2> /dev/null || echo /nix/store/none)" 2> /dev/null
  want 'the roots of the run are left' [ ! -e "$folder/collected/gcroots" ]
  did="collections here in the middle: status 0, and the result is kept behind it"
}

# 3, there: collections on the machine
collected_there() {
  machine one 2 > "$folder/builders"
  salt=there
  begin there --jobs 0 "$(drv steps)"
  soon 300 logged ' begin '
  collect "$folder/one" &
  soon 1200 ended
  wait "$builder"
  status=$?
  wait $!
  want "status $status, $(counted built there) built" is "$status" 0
  sound there 18
  did="collections on the machine in the middle: status 0"
}

# 3, and no collection: a path of this store is deleted under a run, which its machine isn't to blame for
gone() {
  machine one 1 > "$folder/builders"
  salt=gone
  root=$(drv wanting)
  begin gone --jobs 0 "$root"
  soon 300 logged ' begin '
  # shellcheck disable=SC2046  # store paths
  nix-store --delete --ignore-liveness "$root" $(nix-store --query --references "$root" | grep -v "\.drv$") > /dev/null 2>&1
  soon 900 ended
  wait "$builder"
  status=$?
  want "status $status" is "$status" 1
  sound gone 2
  want 'the machine is down' is "$(cat "$folder/gone"/history.* 2> /dev/null | grep -c '^down ')" 0
  want 'it is not lost' has "$folder/gone/history.1" '^failed [0-9]* lost$'
  want "it isn't said" has "$folder/gone.err" 'lost: wanting-gone.*source-gone'
  did="a path of this store deleted under a run: lost, told by its name, and the machine isn't down"
}

# 4: only what is needed
needed() {
  machine one 2 > "$folder/builders"
  salt=needed
  root=$(drv tooled)
  build needed --jobs 0 "$root"
  want "status $status" is "$status" 0
  # shellcheck disable=SC2046  # store paths
  nix-store --delete $(nix-store --query --requisites "$root" | sed -n '/-tool[0-9]/p' | xargs nix-store --query --outputs) > /dev/null 2>&1
  build again --jobs 0 "$root"
  want "with its root valid it ends with status $status" is "$status" 0
  want "with its root valid $(cat "$folder/again"/*.log 2> /dev/null | grep -c ' begin ') are built" is "$(cat "$folder/again"/*.log 2> /dev/null | grep -c ' begin ')" 0
  # half of the graph valid
  root=$(drv none)
  half=$(nix-store --query --requisites "$root" | grep 'layer[01]-')
  # shellcheck disable=SC2086  # store paths
  nix-store --realise $half > /dev/null 2>&1
  build half --jobs 0 "$root"
  want "with half of it valid it ends with status $status" is "$status" 0
  want "with half of it valid $(counted total half) are run and not 11" is "$(counted total half)" 11
  [ ! -e "$folder/half/report.json" ] || sound half 11
  # all of it valid: nothing is copied
  make_store fresh
  machine fresh 2 > "$folder/builders"
  quickest=999999
  for run in 1 2 3; do
    build "all$run" --jobs 0 "$root"
    want "with all of it valid it ends with status $status" is "$status" 0
    [ "$took" -ge "$quickest" ] || quickest=$took spent=$used
  done
  there=$(nix --extra-experimental-features nix-command path-info --all --store "$folder/fresh" | wc -l)
  want "with all of it valid $there paths are copied" is "$there" 0
  # On a machine that does other work its own time counts.
  [ "$quickest" -lt 1000 ] || want "with all of it valid it takes $quickest ms, and $spent of a processor" [ "$spent" -lt 1000 ]
  did="tools that a valid root needed aren't built, half valid builds 11 of 31, and all valid takes $quickest ms, $spent of a processor, and copies nothing"
}

# 5: progress, here and by farm/watch
progress() {
  machine one 1 > "$folder/builders"
  salt=progress
  begin progress --jobs 0 "$(drv steps)"
  soon 300 [ -e "$folder/progress/events" ]
  "$farm/watch" "$folder/progress" 2> "$folder/watched.err" &
  watcher=$!
  soon 300 logged ' end '
  want 'a build has ended, and nothing is said of it' soon 30 has "$folder/progress.err" 'built '
  want 'a build has ended, and farm/watch says nothing of it' soon 30 has "$folder/watched.err" 'built '
  want 'the run has ended by then' kill -0 "$builder"
  soon 900 ended
  wait "$builder"
  want 'farm/watch goes on behind the run' soon 50 gone_by_now "$watcher"
  did="the first line came while builds went on, and farm/watch told the same and ended with the run"
}

gone_by_now() { ! kill -0 "$1" 2> /dev/null; }

# 6: what is said of a failure, of what no machine has, and of a machine that is down
told() {
  { machine one 2; echo "ssh://nobody@localhost x86_64-linux $folder/key 2 9 - - $host_key"; } > "$folder/builders"
  salt=told
  build told --jobs 0 --keep-going "$(drv broken)" "$(drv other)" "$(drv featured)"
  want "status $status" is "$status" 1
  sound told 6
  want 'a failure is told without its status' has "$folder/told.err" 'status 3: broken-told '
  want 'a failure is told without its last line' has "$folder/told.err" '^ *line 30$'
  want 'a failure is told with more than 25 lines' is "$(grep -c '^ *line 2$' "$folder/told.err")" 0
  want 'a failure is told without its machine' has "$folder/told.err" 'broken-told.*root@localhost'
  want 'a failure is told without its log' has "$folder/told.err" "$folder/told/.*log"
  want 'nobuilder without the system' has "$folder/told.err" 'other-told.*aarch64-linux'
  want 'nobuilder without the feature' has "$folder/told.err" 'featured-told.*kvm'
  want 'down without its cause' has "$folder/told.err" 'down.*nobody@localhost.*Permission denied'
  want 'what is beside a failure is not built' is "$(counted built told)" 2
  did="a failure with its status, machine, last lines and log; nobuilder with the system and the feature; down with the cause"
}

# shellcheck source=checks/bad-day/killed.sh
. checks/bad-day/killed.sh
# shellcheck source=checks/bad-day/ends.sh
. checks/bad-day/ends.sh

# 7: a folder that is full, from the start and in the run
full_folder() {
  machine one 2 > "$folder/builders"
  salt=full
  mkdir -p "$folder/tiny1"
  mount -t tmpfs -o size=64k tmpfs "$folder/tiny1" || { wrong="$wrong; a tmpfs can't be mounted"; return; }
  build tiny1/run --jobs 0 "$(drv sourced)"
  umount "$folder/tiny1"
  mkdir -p "$folder/tiny2"
  mount -t tmpfs -o size=2m tmpfs "$folder/tiny2"
  first=$status first_said=$(cat "$folder/tiny1/run.err" 2> /dev/null)
  name=tiny2/run
  "$farm/build" -o "$folder/tiny2/run" --builders "@$folder/builders" --jobs 0 "$(drv steps)" > "$folder/full.out" 2> "$folder/full.err" &
  builder=$!
  soon 300 logged ' begin '
  dd if=/dev/zero of="$folder/tiny2/fill" bs=4096 count=1000 2> /dev/null
  soon 900 ended
  wait "$builder"
  second=$?
  cp "$folder/full.err" "$folder/full.first"
  mark tiny2/run
  rm "$folder/tiny2/fill"
  build tiny2/run --jobs 0 "$(drv steps)"
  want "with more room: status $status" is "$status" 0
  sound tiny2/run "$(counted total tiny2/run)"
  none_again 'with more room'
  umount "$folder/tiny2"
  want "a folder that fills up in the run: status $second" is "$second" 5
  want "a folder that fills up in the run: it isn't said" has "$folder/full.first" 'disk of .* is full'
  stranded=$(sed -n 's/.*history.1 is left in //p' "$folder/full.first")
  want 'the history is gone' [ -s "${stranded:-/none}" ]
  [ -z "$stranded" ] || rm -rf "${stranded%/*}"
  did="a folder that fills up in the run: status 5, said, the history is left elsewhere, and with more room nothing is built again"
}

# 7: a folder that is full from the start
full_at_start() {
  machine one 2 > "$folder/builders"
  salt=fullstart
  mkdir -p "$folder/tiny3"
  mount -t tmpfs -o size=64k tmpfs "$folder/tiny3" || { wrong="$wrong; a tmpfs can't be mounted"; return; }
  status=0
  "$farm/build" -o "$folder/tiny3/run" --builders "@$folder/builders" --jobs 0 "$(drv sourced)" > "$folder/start.out" 2> "$folder/start.err" || status=$?
  umount "$folder/tiny3"
  want "status $status" is "$status" 5
  want "it isn't said" has "$folder/start.err" 'disk of .* is full'
  did="a full folder is told before the run, status 5"
}

# 8: a machine that takes connections and never answers
silent() {
  python3 - > "$folder/silent.port" << 'END' &
import socket, time
taken = socket.create_server(("127.0.0.1", 0))
print(taken.getsockname()[1], flush=True)
time.sleep(120)
END
  listener=$!
  soon 100 [ -s "$folder/silent.port" ]
  { machine one 2 | sed 's/ 2 1 - / 2 9 - /'; } > "$folder/builders"
  salt=silent
  options=$NIX_SSHOPTS
  NIX_SSHOPTS="-p $(cat "$folder/silent.port") -o HostKeyAlias=localhost"
  more=''
  [ "$farm" != farm ] || more='--connect-timeout 3'
  # shellcheck disable=SC2086  # words
  begin silent --jobs 1 $more "$(drv sourced)"
  want 'the build hangs' soon 600 ended || kill "$builder"
  wait "$builder"
  status=$?
  NIX_SSHOPTS=$options
  kill "$listener"
  want "status $status" is "$status" 0
  sound silent 1
  want 'down without its cause' has "$folder/silent.err" 'down.*timed out'
  did="a machine that never answers is down after the bound on connecting, and this one builds"
}

# 9: the processes of Nix that an agent speaks with are killed
killed_agent() {
  machine one 1 > "$folder/builders"
  salt=killagent
  more=''
  [ "$farm" != farm ] || more='--retries 0'
  # shellcheck disable=SC2086  # words
  begin killagent --jobs 0 $more "$(drv sleeper)"
  soon 300 logged ' begin '
  soon 300 serving
  want 'nothing was begun on the machine' serving
  # shellcheck disable=SC2046  # process numbers
  kill -9 $(below_with "$builder" 'nix-daemon')
  want "what it had started goes on after 20 seconds: nix-store here or there" soon 200 all_ended
  soon 300 ended
  wait "$builder"
  status=$?
  want "status $status" is "$status" 1
  sound killagent 1
  build killagent --jobs 0 "$(drv sourced)"
  want "again in the folder, it ends with status $status" is "$status" 0
  sound killagent 1
  did="kill -9 of an agent's processes: what they had started has ended, here and there"
}
serving() { [ -n "$(below_with "$(cat "$folder/sshd.pid")" 'nix-store --serve')" ]; }
# Whether a process of this side still builds, or may: a daemon that is spoken with, or a build hook.
realising() {
  for one in $(grep -l -s -a -e '[n]ix-daemon' -e '[_]_build-remote' /proc/[0-9]*/cmdline); do
    ! grep -q -s -a -e "NIX_CONF_DIR=$folder/conf" "${one%cmdline}environ" || return 0
  done
  return 1
}
all_ended() { ! serving && ! realising; }

# 10: the small ones
small() {
  machine one 1 > "$folder/builders"
  salt=small
  build gone "/nix/store/00000000000000000000000000000000-none.drv"
  want "what can't be gathered ends with status $status" is "$status" 3
  builders=$folder/builders
  "$farm/build" -o "$folder/none" --builders "@$folder/no-such-file" "$(drv sourced)" > "$folder/none.out" 2> "$folder/none.err"
  want "a builders list that isn't there ends with status $?" has "$folder/none.err" 'no-such-file'
  : > "$folder/builders"
  build local "$(drv parallel)"
  want "a feature of nix.conf is nobuilder" is "$status" 0
  build words --jobs 1 --explain --keep-failed -k --max-jobs 1 --timeout 60 --max-silent-time 60 --cores 1 --no-link "$(drv sourced)"
  want "Nix's words: status $status, $(tail -n 1 "$folder/words.err")" is "$status" 0
  want '--no-link leaves a link' [ ! -e "$folder/words/result" ]
  want 'the path that was built is not printed' has "$folder/words.out" '^/nix/store/.*-sourced-small$'
  # a park without a slot
  : > "$folder/builders"
  build none --jobs 0 "$(drv other)"
  want "without a slot: status $status" is "$status" 1
  sound none 1
  machine one 1 > "$folder/builders"
  # files that aren't a run's stay
  mkdir -p "$folder/mine/logs"
  : > "$folder/mine/logs/mine"
  : > "$folder/mine/mine.log"
  build mine --jobs 1 "$(drv sourced)"
  want "what isn't a run's is gone" [ -e "$folder/mine/logs/mine" -a -e "$folder/mine/mine.log" ]
  salt=small2
  build linked --jobs 1 "$(drv sourced)"
  want 'there is no link' is "$(readlink "$folder/linked/result")" "$(output "$(drv sourced)")"
  # a builder that takes too long
  salt=small3
  build late --jobs 1 --timeout 2 "$(drv slow)"
  want "--timeout: status $status, $(grep ^failed "$folder/late/history")" has "$folder/late/history" '^failed [0-9]* status 101$'
  did="statuses apart, the name of a file that can't be read, settings of nix.conf, Nix's words, --no-link and --timeout"
}

# A store that is to be substituted from.
substituted() {
  machine one 1 > "$folder/builders"
  salt=substituted
  root=$(drv tooled)
  nix-store --realise "$root" > /dev/null 2>&1
  made=$(output "$root")
  nix --extra-experimental-features nix-command copy --no-check-sigs --to "file://$folder/cache" "$made" 2> /dev/null
  # shellcheck disable=SC2046  # store paths
  nix-store --delete "$made" $(nix-store --query --requisites "$root" | sed -n '/-tool[0-9]/p' | xargs nix-store --query --outputs) > /dev/null 2>&1
  build substituted --jobs 0 --substitute --option substituters "file://$folder/cache" --option require-sigs false "$root"
  want "status $status" is "$status" 0
  want 'something is built' is "$(cat "$folder/substituted"/*.log 2> /dev/null | grep -c ' begin ')" 0
  want "it isn't said" has "$folder/substituted.err" 'fetched from the substituters'
  want 'it is not there' nix-store --check-validity "$made"
  did="what a substituter has is taken from it, and the tools it was built with are left out"
}

# A machine that is full: what is lost there is built elsewhere.
full_machine() {
  mkdir -p "$folder/tiny4"
  mount -t tmpfs -o size=16m tmpfs "$folder/tiny4" || { wrong="$wrong; a tmpfs can't be mounted"; return; }
  make_store tiny4
  { machine tiny4 1 | sed 's/ 1 1 - / 1 9 - /'; machine one 1; } > "$folder/builders"
  salt=fullmachine
  build fullmachine --jobs 0 "$(drv big)"
  umount "$folder/tiny4"
  want "status $status" is "$status" 0
  sound fullmachine 1
  want 'nothing was lost' has "$folder/fullmachine/history.1" '^failed [0-9]* lost$'
  did="a full machine: lost twice, then without it in round $(counted rounds fullmachine)"
}

# This machine's store is full while outputs come back.
full_store() {
  mkdir -p "$folder/tiny6"
  mount -t tmpfs -o size=16m tmpfs "$folder/tiny6" || { wrong="$wrong; a tmpfs can't be mounted"; return; }
  machine one 1 > "$folder/builders"
  salt=fullstore
  NIX_REMOTE=$folder/tiny6
  build fullstore --jobs 0 "$(drv big)"
  NIX_REMOTE=$folder/local
  umount "$folder/tiny6"
  want "status $status" is "$status" 5
  sound fullstore 1
  want "it isn't lost" has "$folder/fullstore/history" '^failed [0-9]* lost$'
  want "it isn't said" has "$folder/fullstore.err" 'no space left here'
  did="this store full while outputs come back: lost, no fault of the builder or the machine, and status 5"
}

# A machine whose store can't be written to.
read_only() {
  mkdir -p "$folder/tiny5"
  mount -t tmpfs -o size=16m tmpfs "$folder/tiny5" || { wrong="$wrong; a tmpfs can't be mounted"; return; }
  make_store tiny5
  mount -o remount,ro "$folder/tiny5"
  { machine tiny5 1 | sed 's/ 1 1 - / 1 9 - /'; machine one 1; } > "$folder/builders"
  salt=readonly
  build readonly --jobs 0 "$(drv sourced)"
  umount "$folder/tiny5"
  want "status $status" is "$status" 0
  sound readonly 1
  want 'down without its cause' has "$folder/readonly.err" 'down.*'
  did="a machine with a read-only store is down, and another one builds"
}

# Two runs at once on one park, and a second one in one folder.
two_at_once() {
  { machine one 4; machine two 4; } > "$folder/builders"
  salt=twice
  root=$(drv many)
  begin first --jobs 0 "$root"
  first=$builder
  salt=other
  begin second --jobs 0 "$(drv many)"
  soon 300 [ -e "$folder/first/gcroots" ]
  "$farm/build" -o "$folder/first" --builders "@$folder/builders" --jobs 0 "$root" > "$folder/third.out" 2> "$folder/third.err"
  third=$?
  want 'a third in the same folder takes the roots of the first away' [ -e "$folder/first/gcroots" ]
  soon 1200 ended
  wait "$builder"
  second=$?
  wait "$first"
  first=$?
  want "statuses $first and $second" is "$first $second" '0 0'
  sound first 49
  sound second 49
  want "a third in the same folder: status $third" is "$third" 5
  did="two runs at once on one park: status 0 and 0; a third in the folder of the first is refused"
}

# Each Python.
pythons() {
  machine one 2 > "$folder/builders"
  tried=''
  for version in 9 10 11 12 13 14; do
    python=$(command -v "python3.$version") || continue
    "$python" -c '' 2> /dev/null || continue
    mkdir -p "$folder/python$version"
    ln -sf "$python" "$folder/python$version/python3"
    salt=python$version
    path=$PATH
    PATH=$folder/python$version:$PATH
    build "python$version" --jobs 1 -k "$(drv broken)" "$(drv none)"
    PATH=$path
    want "Python 3.$version: status $status" is "$status" 1
    sound "python$version" 35
    want "Python 3.$version: $(counted built "python$version") are built" is "$(counted built "python$version")" 33
    tried="$tried 3.$version"
  done
  want 'there is none' [ -n "$tried" ]
  did="the same by each Python of:$tried"
}

# What the table of messages says of those that Nix gave.
blamed() {
  want "$(python3 -m unittest discover -s farm/tests -t farm -p test_blame.py 2>&1 | tail -n 20)" \
    python3 -m unittest discover -q -s farm/tests -t farm -p test_blame.py 2> /dev/null
  count=$(wc -l < checks/blame/table | tr -d ' ')
  want 'a message has no row in the table' is "$count" "$(find checks/blame/messages -type f | wc -l | tr -d ' ')"
  did="$count messages of Nix are blamed as the table says"
}

# 31 builds of no work, beside nix-build on the same machines; and a graph with one long chain.
quick() {
  { machine one 4; machine two 4; } > "$folder/builders"
  ours=999999 theirs=999999
  for run in 1 2 3; do
    salt=ours$run
    build "quick$run" --jobs 0 "$(drv none)"
    want "status $status" is "$status" 0
    [ "$took" -ge "$ours" ] || ours=$took
    salt=theirs$run
    root=$(drv none)
    begun=$(date +%s%3N)
    nix-store --realise --max-jobs 0 --builders "@$folder/builders" "$root" > /dev/null 2>&1 || wrong="$wrong; nix-store fails"
    took=$(($(date +%s%3N) - begun))
    [ "$took" -ge "$theirs" ] || theirs=$took
  done
  want "$ours ms, and Nix $theirs ms" [ "$ours" -le $((theirs * 11 / 10)) ]
  did="31 builds of no work: $ours ms, and nix-store --realise on the same machines $theirs ms"
}

failed=0
all='blamed slots refused lost resumed collected collected_there gone needed progress told interrupted killed_run killed_all killed_half killed_later begun_anew full_at_start full_folder silent stalled killed_agent small statuses killed_builder keyless told_wrongly substituted full_machine full_store read_only two_at_once pythons quick'
# shellcheck disable=SC2086  # words
for case in ${*:-$all}; do
  wrong='' did=''
  "$case"
  if [ -z "$wrong" ]; then
    echo "$case: $did"
  else
    echo "$case: FAILED: ${wrong#; }"
    failed=1
  fi
done
exit "$failed"
