# The park of bad-day.sh and of blame/capture.sh, to be read by `.`: an sshd with the system's own configuration
# on loopback, a host key, a key to log in with, and Nix's stores in folders.
#
#     folder    where all of it lies
#     port      the port of the sshd
#     host_key  the host key as a builders list has it
#
# What is set here is the configuration of Nix, the store (NIX_REMOTE), and how Nix calls ssh.

# shellcheck shell=sh disable=SC2154  # folder is its reader's
sshd=$(command -v sshd || echo /usr/sbin/sshd)
port=${PORT-2223}
mkdir "$folder/conf"
cat > "$folder/conf/nix.conf" << END
build-users-group =
sandbox = true
sandbox-paths = /bin/sh=$(command -v busybox)
substitute = false
substituters =
extra-platforms = i686-linux
system-features = big-parallel
experimental-features = nix-command
END
ssh-keygen -q -t ed25519 -N '' -f "$folder/key"
ssh-keygen -q -t ed25519 -N '' -f "$folder/host"
mkdir -p /run/sshd
configuration=/etc/ssh/sshd_config
[ -r "$configuration" ] || configuration=/dev/null
start_sshd() {
  "$sshd" -E "$folder/sshd.log" -f "$configuration" -h "$folder/host" -o ListenAddress=127.0.0.1 -o "Port=$port" -o "PidFile=$folder/sshd.pid" \
    -o LogLevel=INFO -o "AuthorizedKeysFile=$folder/key.pub" -o StrictModes=no -o "SetEnv=NIX_CONF_DIR=$folder/conf" "$@"
}
start_sshd
host_key=$(cut -d' ' -f1,2 "$folder/host.pub" | tr -d '\n' | base64 -w0)
export NIX_CONF_DIR="$folder/conf" NIX_REMOTE="$folder/local" NIX_SSHOPTS="-p $port -o HostKeyAlias=localhost"
unset NIX_PATH

# The entry of a machine whose store is a folder behind ssh: NAME JOBS [SYSTEMS [FEATURES]].
machine() {
  echo "ssh://root@localhost?remote-store=$folder/$1 ${3-x86_64-linux} $folder/key $2 1 ${4--} - $host_key"
}

# Makes a store, as Nix does where there is none; it fails where two do so at once.
make_store() {
  nix --extra-experimental-features nix-command store ping --store "$folder/$1" 2> /dev/null
}

# The processes below one, by their numbers, the lowest first.
below() {
  cat /proc/[0-9]*/stat 2> /dev/null | awk -v top="$1" '
    { sub(/ \(.*\) /, " - "); parent[$1] = $4 }
    END { for (one in parent) { for (at = parent[one]; at in parent && at != top; at = parent[at]) if (at <= 1) break; if (at == top) print one } }
  ' | sort -rn
}

# Those of them whose words hold this.
below_with() {
  for one in $(below "$1"); do
    if { tr '\0' ' ' < "/proc/$one/cmdline"; } 2> /dev/null | grep -q -e "$2"; then echo "$one"; fi
  done
}

# Ends the sshd and what it serves, and takes the folder away.
end_park() {
  if [ -s "$folder/sshd.pid" ]; then
    # shellcheck disable=SC2046  # process numbers
    kill $(below "$(cat "$folder/sshd.pid")") "$(cat "$folder/sshd.pid")" 2> /dev/null || true
  fi
  chmod -R u+w "$folder" 2> /dev/null || true
  rm -rf "$folder"
}
