#!/bin/sh
# Has real Nix say each of its messages about a build that doesn't end well, and keeps them:
#
#     checks/blame/capture.sh FOLDER
#
# FOLDER gets a file NAME of each, `here-..` of a build in this machine's store and `there-..` of one by Nix's
# build hook on a machine behind ssh, and a line `NAME STATUS` of each in the file `statuses`. It needs Nix, sshd,
# a static busybox and root, and room for stores; the files of `messages` are what Debian's Nix 2.8 said. What the farm
# makes of those in FOLDER is seen by
#
#     BLAME_MESSAGES=FOLDER python3 -m unittest discover -s farm/tests -t farm -p test_blame.py
set -u
cd "$(dirname "$0")/../.." || exit 2
into=$1
mkdir -p "$into"
: > "$into/statuses"
folder=$(mktemp -d)
graph=checks/blame/graph.nix
# shellcheck source=checks/bad-day/park.sh
. checks/bad-day/park.sh
# shellcheck disable=SC2317  # the trap calls it
clean_up() {
  umount "$folder/small" "$folder/smaller" 2> /dev/null
  end_park
}
trap clean_up EXIT
make_store one
make_store local
good="ssh://root@localhost?remote-store=$folder/one&ssh-key=$folder/key&base64-ssh-public-host-key=$host_key"
store=$good

# NAME WHERE ATTRIBUTE [OPTION ..]: builds it, and keeps what was said, without this machine's own folders
say() {
  name=$1 where=$2 attribute=$3
  shift 3
  drv=$(nix-instantiate "$graph" -A "$attribute" 2> /dev/null)
  if [ "$where" = here ]; then jobs=1 builders=''; else jobs=0 builders="$store x86_64-linux - 1 1 big-parallel,kvm"; fi
  timeout 60 nix-store --realise --option substitute false --max-jobs "$jobs" --builders "$builders" "$@" "$drv" \
    < /dev/null > /dev/null 2> "$into/raw"
  status=$?
  sed "s|$folder|/tmp/park|g; s|$host_key|HOSTKEY|g" "$into/raw" > "$into/$where-$name"
  rm -f "$into/raw"
  echo "$where-$name $status" >> "$into/statuses"
  echo "== $where-$name $status"
  cat "$into/$where-$name"
}

for where in here there; do
  for attribute in status signal hash missing liar nothing forbidden; do say "$attribute" "$where" "$attribute"; done
  say timeout "$where" timeout --timeout 2
  say silent "$where" silent --max-silent-time 2
done

# What `nix store ping` and `nix copy` say, likewise.
tell() {
  name=$1
  shift
  timeout 60 nix --extra-experimental-features nix-command "$@" < /dev/null > /dev/null 2> "$into/raw"
  status=$?
  sed "s|$folder|/tmp/park|g; s|$host_key|HOSTKEY|g" "$into/raw" > "$into/$name"
  rm -f "$into/raw"
  echo "$name $status" >> "$into/statuses"
  echo "== $name $status"
  cat "$into/$name"
}

# A machine that isn't there, that refuses the key, that has no such command, that has another host key
store=$(echo "$good" | sed 's/root@localhost/nobody@localhost/')
say denied there good
tell ping-denied store ping --store "$store"
store=$(echo "$good" | sed "s|remote-store=[^&]*|remote-program=no-such-nix-store|")
say command there good
tell ping-command store ping --store "$store"
store="$good"
NIX_SSHOPTS="-p 1 -o HostKeyAlias=localhost" say refused there good
NIX_SSHOPTS="-p 1 -o HostKeyAlias=localhost" tell ping-refused store ping --store "$store"
store=$(echo "$good" | sed 's/root@localhost/root@no-such-host.invalid/')
say name there good
tell ping-name store ping --store "$store"
store=$(echo "$good" | sed 's/&base64.*//')"&base64-ssh-public-host-key=$(printf 'ssh-ed25519 AAAAC3NzaC1lZDI1NTE5AAAAIAAAAAAAAAAAAAAAAAAAAAAAAAAAAAAAAAAAAAAAAAAA' | base64 -w0)"
say hostkey there good
tell ping-hostkey store ping --store "$store"
store=$good

# A machine that takes connections and never answers, one that closes them at once, and an sshd with too many
python3 - > "$folder/ports" << 'END' &
import socket, time
silent, closing = socket.create_server(("127.0.0.1", 0)), socket.create_server(("127.0.0.1", 0))
print(silent.getsockname()[1], closing.getsockname()[1], flush=True)
closing.settimeout(1)
end = time.time() + 40
while time.time() < end:
    try:
        closing.accept()[0].close()
    except TimeoutError:
        pass
END
listener=$!
sleep 2
read -r silent closing < "$folder/ports"
NIX_SSHOPTS="-p $silent -o HostKeyAlias=localhost -o ConnectTimeout=3" tell ping-silent store ping --store "$store"
NIX_SSHOPTS="-p $silent -o HostKeyAlias=localhost -o ConnectTimeout=3" say unanswered there good
NIX_SSHOPTS="-p $closing -o HostKeyAlias=localhost -o ConnectTimeout=3" tell ping-closed store ping --store "$store"
kill "$listener"

# The machine's process is ended in the build, and so is the connection, and this side's.
later() {
  {
    sleep 5
    # shellcheck disable=SC2046  # process numbers
    kill -9 $(below_with "$1" "$2")
  } > /dev/null 2>&1 &
}
later "$(cat "$folder/sshd.pid")" 'nix-store --serve --write'
say killed there slow
later "$(cat "$folder/sshd.pid")" 'sshd: root'
say connection there slow
later $$ '__build-remote'
say hook there slow

# The machine's process is ended while the outputs come back.
{
  # shellcheck disable=SC2034  # a count
  for tenth in 1 2 3 4 5 6 7 8 9 10 11 12 13 14 15 16 17 18 19 20; do
    sleep 0.5
    for beat in 1 2 3 4 5 6 7 8 9 10 11 12 13 14 15 16 17 18 19 20 21 22 23 24 25; do
      if grep -q '^copying path .* from ' "$into/raw" 2> /dev/null; then
        # shellcheck disable=SC2046  # process numbers
        kill -9 $(below_with "$(cat "$folder/sshd.pid")" 'nix-store --serve')
        exit
      fi
      sleep 0.02
    done
  done
} > /dev/null 2>&1 &
say after there large

# A path of this store is gone, and a derivation.
drv=$(nix-instantiate "$graph" -A gone 2> /dev/null)
source=$(nix-store --query --references "$drv" | grep -v '\.drv$')
nix-store --delete "$drv" "$source" > /dev/null 2>&1
tell copy-gone copy --no-check-sigs --no-recursive --to "$good" "$source"
nix-store --realise --option substitute false --max-jobs 0 --builders "$good x86_64-linux" "$drv" < /dev/null > /dev/null 2> "$into/there-gone"
echo "there-gone $?" >> "$into/statuses"
cat "$into/there-gone"

# No space on the machine, none here while outputs come back, and none here in a build.
mkdir "$folder/small" "$folder/smaller"
mount -t tmpfs -o size=16m tmpfs "$folder/small"
small=$(echo "$good" | sed "s|$folder/one|$folder/small|")
store=$small
say space there big
store=$good
mount -t tmpfs -o size=16m tmpfs "$folder/smaller"
NIX_REMOTE="$folder/smaller" say space here big
NIX_REMOTE="$folder/smaller" say back there big
big=$(nix-store --query --outputs "$(nix-instantiate "$graph" -A big 2> /dev/null)")
nix --extra-experimental-features nix-command copy --no-check-sigs --from "$good" "$big"
tell copy-space copy --no-check-sigs --no-recursive --to "$small" "$big"

# A store that can't be written to.
mount -o remount,ro "$folder/small" && {
  store=$small
  say readonly there good
  tell ping-readonly store ping --store "$store"
  store=$good
}

# No machine has the feature.
say feature here feature
