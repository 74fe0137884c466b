#!/bin/sh
# Builds a graph on real Nix stores, a folder each, and looks at the stores and the agents' logs:
#
#     checks/real-park.sh [-k] [GRAPH.nix]
#
# 1. each output that the history calls built is valid in the local store, and no other of the graph's
# 2. each derivation was realised once, in all stores together
# 3. the history is legal
# 4. the valid paths of each machine's store are those that the history says it holds
# 5. at no moment more builds ran on a machine than its jobs
# 6. the same graph built by nix-build alone gives the same outputs, references and NAR hashes
# 7. where the process by which Nix builds is killed the run ends, its history is legal and says lost, and nothing
#    is built twice
#
# It needs Nix 2.8 or later and a static busybox, as Debian's nix-bin and busybox-static have them, Python 3,
# root, and no network. It installs nothing. With -k the folder with all that it made stays.
set -eu

keep=''
if [ "${1-}" = -k ]; then keep=yes; shift; fi
for command in nix-store busybox python3; do
  command -v "$command" > /dev/null || { echo "real-park: there is no $command (Debian: nix-bin, busybox-static, python3)" >&2; exit 2; }
done
cd "$(dirname "$0")/.."
graph=${1-checks/real-park/graph.nix}
folder=$(mktemp -d)
# shellcheck disable=SC2317  # the trap calls it
clean_up() {
  if [ -n "$keep" ]; then echo "real-park: $folder"; return; fi
  chmod -R u+w "$folder"
  rm -rf "$folder"
}
trap clean_up EXIT

mkdir "$folder/conf"
cat > "$folder/conf/nix.conf" << END
build-users-group =
sandbox = true
sandbox-paths = /bin/sh=$(command -v busybox)
substitute = false
substituters =
extra-platforms = i686-linux
system-features = big-parallel
END
export NIX_CONF_DIR="$folder/conf" NIX_REMOTE="$folder/local"
unset NIX_PATH

# Three machines: one of them alone builds for the second platform, one has the feature, and one refuses all.
cat > "$folder/builders" << END
$folder/one x86_64-linux - 4 1 - -
$folder/two x86_64-linux,i686-linux - 2 1 big-parallel -
/proc/none x86_64-linux - 2 4 - -
END

# Nix makes a store where there is none, and fails where two do so at once.
for machine in one two; do
  nix --extra-experimental-features nix-command store ping --store "$folder/$machine" 2> /dev/null
done

build() {
  name=$1
  shift
  status=0
  farm/build -o "$folder/$name" --builders "@$folder/builders" --jobs 1 --keep-going "$@" > "$folder/$name.out" 2> "$folder/$name.err" || status=$?
}

all=$(nix-instantiate "$graph" -A all 2> /dev/null)
broken=$(nix-instantiate "$graph" -A broken 2> /dev/null)
build ran "$all" "$broken"
[ "$status" -eq 1 ] || { echo "real-park: the run's status is $status, and one derivation fails" >&2; cat "$folder/ran.err" >&2; exit 1; }
python3 checks/real-park/look.py "$folder" ran one two

# 6: what nix-build makes in a store of its own
NIX_REMOTE="$folder/alone" nix-build "$graph" -A all --no-out-link --max-jobs 4 > /dev/null 2>&1 ||
  { echo 'real-park: nix-build failed' >&2; exit 1; }
outputs=$(python3 checks/real-park/look.py "$folder" ran outputs)
for store in local alone; do
  # shellcheck disable=SC2086  # store paths
  NIX_REMOTE="$folder/$store" nix-store --dump-db $outputs > "$folder/$store.db"
done
python3 checks/real-park/look.py "$folder" same local.db alone.db
echo '6: nix-build alone makes the same outputs, references and hashes'

# 7: the agent's process of Nix is killed in the middle of a build
slow=$(nix-instantiate "$graph" -A slow 2> /dev/null)
build killed --retries 0 "$slow" &
runner=$!
agent=''
for _ in 1 2 3 4 5 6 7 8 9 10 11 12 13 14 15 16 17 18 19 20; do
  sleep 0.2
  log=$(grep -l '^[0-9]* begin ' "$folder"/killed/*.log 2> /dev/null) || continue
  uri=$(basename "$log" .log)
  agent=$(python3 checks/real-park/look.py "$folder" agent "$log")
  break
done
[ -n "$agent" ] || { echo 'real-park: no agent began the long build' >&2; exit 1; }
kill -KILL "$agent"
wait "$runner" || true
grep -q '^failed 0 lost$' "$folder/killed/history" || { echo 'real-park: the history of the killed build has no lost' >&2; exit 1; }
grep -q '^legal ' "$folder/killed/verdict" || { echo 'real-park: the history of the killed build is not legal' >&2; exit 1; }
[ "$(cat "$folder"/killed/*.log | grep -c '^[0-9]* begin ')" -eq 1 ] || { echo 'real-park: built twice' >&2; exit 1; }
echo "7: the process of slot $uri was killed in a build: lost, and a legal history"
