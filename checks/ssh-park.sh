#!/bin/sh
# Builds the graph of real-park.sh on two machines behind `ssh://`, which are this one: an sshd of its own, with
# a host key and one key to log in with, and a store in a folder behind each of two URIs.
#
#     checks/ssh-park.sh [-k]
#
# It looks at what real-park.sh looks at, from 1 to 5, and at the keys, which the builders list alone names. It
# needs what real-park.sh needs, and sshd and ssh of OpenSSH 8.0 or later, as Debian's openssh-server has them.
# The sshd listens on port 2222 of 127.0.0.1, or on that of PORT, and ends with the script. It installs nothing,
# and changes no file of the system. With -k the folder with all that it made stays.
set -eu

keep=''
if [ "${1-}" = -k ]; then keep=yes; shift; fi
sshd=$(command -v sshd || echo /usr/sbin/sshd)
for command in nix-store busybox python3 ssh ssh-keygen "$sshd"; do
  command -v "$command" > /dev/null || { echo "ssh-park: there is no $command (Debian: nix-bin, busybox-static, python3, openssh-server)" >&2; exit 2; }
done
cd "$(dirname "$0")/.."
graph=checks/real-park/graph.nix
port=${PORT-2222}
folder=$(mktemp -d)
# shellcheck disable=SC2317  # the trap calls it
clean_up() {
  [ ! -s "$folder/pid" ] || kill "$(cat "$folder/pid")"
  if [ -n "$keep" ]; then echo "ssh-park: $folder"; return; fi
  chmod -R u+w "$folder"
  rm -rf "$folder"
}
trap clean_up EXIT

mkdir "$folder/conf"
cat > "$folder/conf/nix.conf" << END
build-users-group =
sandbox = true
sandbox-paths = /bin/sh=$(command -v busybox)
substitute = false
substituters =
extra-platforms = i686-linux
system-features = big-parallel
END

# The machines' side: whoever logs in finds that configuration.
ssh-keygen -q -t ed25519 -N '' -f "$folder/key"
ssh-keygen -q -t ed25519 -N '' -f "$folder/host"
mkdir -p /run/sshd
"$sshd" -f /dev/null -h "$folder/host" -o ListenAddress=127.0.0.1 -o "Port=$port" -o "PidFile=$folder/pid" \
  -o "AuthorizedKeysFile=$folder/key.pub" -o PermitRootLogin=prohibit-password -o PasswordAuthentication=no \
  -o StrictModes=no -o "SetEnv=NIX_CONF_DIR=$folder/conf"
host_key=$(cut -d' ' -f1,2 "$folder/host.pub" | tr -d '\n' | base64 -w0)

# This side: Nix tells ssh the key and the host key of the builders list, and these options.
export NIX_CONF_DIR="$folder/conf" NIX_REMOTE="$folder/local" NIX_SSHOPTS="-p $port -o HostKeyAlias=localhost"
unset NIX_PATH
cat > "$folder/builders" << END
ssh://root@localhost?remote-store=$folder/one x86_64-linux $folder/key 4 1 - - $host_key
ssh://root@localhost?remote-store=$folder/two x86_64-linux,i686-linux $folder/key 2 1 big-parallel - $host_key
END
# Nix makes a store where there is none, and fails where two do so at once.
for machine in one two; do
  nix --extra-experimental-features nix-command store ping --store "$folder/$machine" 2> /dev/null
done

all=$(nix-instantiate "$graph" -A all 2> /dev/null)
broken=$(nix-instantiate "$graph" -A broken 2> /dev/null)
status=0
farm/build -o "$folder/ran" --builders "@$folder/builders" --jobs 1 --keep-going "$all" "$broken" > "$folder/ran.out" 2> "$folder/ran.err" || status=$?
[ "$status" -eq 1 ] || { echo "ssh-park: the run's status is $status, and one derivation fails" >&2; cat "$folder/ran.err" >&2; exit 1; }
python3 checks/real-park/look.py "$folder" ran one two

# Another host key is refused, and so the machine is down.
sed "s/ [^ ]*\$/ $(printf 'ssh-ed25519 AAAAC3NzaC1lZDI1NTE5AAAAIAAAAAAAAAAAAAAAAAAAAAAAAAAAAAAAAAAAAAAAAAAA' | base64 -w0)/" "$folder/builders" > "$folder/other"
plain=$(nix-instantiate "$graph" -A slow 2> /dev/null)
farm/build -o "$folder/refused" --builders "@$folder/other" --jobs 1 "$plain" > "$folder/refused.out" 2> "$folder/refused.err" || true
grep -qx 'down 0' "$folder/refused/history" || { echo 'ssh-park: a machine with another host key is not down' >&2; exit 1; }
grep -qx 'chosen 0 0 0' "$folder/refused/history" || { echo 'ssh-park: this machine does not take over' >&2; exit 1; }
echo 'keys: with another host key both machines are down, and this one builds'
