#!/bin/sh
# A machine of apart.sh, within namespaces of its own: what it sees in place of this system's files, and what it runs.
#
#     machine.sh FOLDER KIND
#
# FOLDER has `nix`, `etc-nix`, `ssh`, `home`, `root`, `run` and `tmp`. A `machine` runs a nix-daemon and an sshd, and
# whoever is `here` a nix-daemon alone; it sees /tmp as it is.
set -eu
mount --make-rprivate /
mount -t proc proc /proc
for pair in nix:/nix etc-nix:/etc/nix ssh:/etc/ssh home:/home root:/root run:/run; do
  mount --bind "$1/${pair%%:*}" "${pair#*:}"
done
for file in passwd group shadow hosts; do mount --bind "$1/../$file" "/etc/$file"; done
mkdir -p /run/sshd
nix=/usr/bin/nix-daemon
if [ "$2" = machine ]; then mount --bind "$1/tmp" /tmp; fi
env -u NIX_REMOTE "$nix" --daemon > /run/nix-daemon.log 2>&1 &
if [ "$2" = machine ]; then
  # the configuration that it came with
  "$(command -v sshd || echo /usr/sbin/sshd)" -E /run/sshd.log -o LogLevel=INFO
fi
touch /run/up
# whoever is the first here ends all the others with itself
while :; do sleep 1000; done
