#!/bin/sh
# The first commands of README.md, and what they refuse. `./try` answers the bundled example, from two folders, as
# the built program does and as `examples/farm/replies` says; it has one line of its own on standard error; a bad
# word ends it as it ends the program, with the usage and status 2. Without the toolchain `./try` and `./build` say
# so. `./build`, in a tree of small crates, names one that isn't proved and leaves no program, builds it once the
# crate is mended, with no look at what the program doesn't need, and does nothing where nothing has changed.
set -eu
cd "$(dirname "$0")/.."
top=$PWD
program=crates/nix_dispatch/out/nix_dispatch
farm=examples/farm
folder=$(mktemp -d)
trap 'rm -rf "$folder"' EXIT
note='unproved, with run-time checks: ./build makes the proved program'

fail() {
  echo "first: $*"
  exit 1
}

# status WORD ..: runs a command, what it writes in $folder/out and $folder/said; its status is `got`.
status() {
  got=0
  "$@" > "$folder/out" 2> "$folder/said" || got=$?
}

# The example.
status ./try ask --builders "@$farm/builders" < "$farm/bundle"
[ "$got" -eq 0 ] || fail "./try ask ends with status $got: $(cat "$folder/said")"
cmp "$folder/out" "$farm/replies" || fail 'the replies of ./try are not the stored ones'
[ "$(cat "$folder/said")" = "$note" ] || fail "./try says: $(cat "$folder/said")"
if [ -x "$program" ]; then
  "$program" ask --builders "@$farm/builders" < "$farm/bundle" | cmp - "$folder/out" || fail 'the replies are not those of the proved program'
fi
cd "$farm"
status ../../try ask --bundle bundle --builders @builders < /dev/null
cd "$top"
[ "$got" -eq 0 ] || fail "./try from another folder ends with status $got"
cmp "$folder/out" "$farm/replies" || fail 'the replies of ./try from another folder are others'

# A word that no command is, and a status that is passed on.
status ./try frobnicate
[ "$got" -eq 2 ] || fail "a bad word ends ./try with status $got"
[ ! -s "$folder/out" ] || fail 'a bad word has ./try write something'
[ "$(head -n 1 "$folder/said")" = "$note" ] || fail 'the line of ./try is missing'
grep -q '^Usage: nix-dispatch <COMMAND>$' "$folder/said" || fail 'a bad word brings no usage'
if [ -x "$program" ]; then
  sed 1d "$folder/said" > "$folder/usage"
  status "$program" frobnicate
  cmp "$folder/usage" "$folder/said" || fail 'the usage is not that of the proved program'
fi
status ./try ask --builders "@$folder/none" < "$farm/bundle"
[ "$got" -eq 5 ] || fail "a file that isn't there ends ./try with status $got"

# What a command says without the toolchain: one line.
lacking() {
  [ "$got" -eq 127 ] || fail "without the toolchain $1 ends with status $got"
  [ ! -s "$folder/out" ] || fail "without the toolchain $1 writes something"
  [ "$(wc -l < "$folder/said")" -eq 1 ] || fail "without the toolchain $1 says: $(cat "$folder/said")"
  grep -q "^${1#./}: .*toolchain is missing" "$folder/said" || fail "without the toolchain $1 says: $(cat "$folder/said")"
}

# No toolchain.
python=$(python3 -c 'import sys; print(sys.executable)')
mkdir "$folder/bin"
ln -s "$(command -v dirname)" "$folder/bin/dirname"
status env PATH="$folder/bin" ./try ask
lacking ./try
status env PATH="$folder/bin" "$python" ./build
lacking ./build

# Other words.
status ./build --fast
[ "$got" -eq 2 ] || fail "./build --fast ends with status $got"
grep -qxF '    ./build [--jobs N]' "$folder/said" || fail "./build --fast says: $(cat "$folder/said")"

# A tree of a program and a crate below it, and of a crate that the program doesn't need and that is no Rust.
tree=$folder/tree
mkdir -p "$tree/bench" "$tree/crates/nd_low/src" "$tree/crates/nix_dispatch/src" "$tree/crates/nix_dispatch/out"
cp build "$tree"
cp bench/costs.txt "$tree/bench"
printf 'nd_low:\nnix_dispatch: nd_low\nnd_other: nd_low\n' > "$tree/crates.txt"
cat > "$tree/crates/nd_low/src/lib.rt" << 'END'
#![tactic(auto)]

ghost use Rattle.std.specs.Prelude.{◌≡◌};

/// The number itself.
pub fn same(x: usize) -> usize
    ensures { result ≡ x }
{
    0
}
END
cat > "$tree/crates/nix_dispatch/src/main.rt" << 'END'
#![tactic(auto)]

use std::io;

fn main(rt: HostRuntime) -> io::Result<()> {
    let number = nd_low::same(3);
    println!(rt; "{number}")
}
END
mkdir -p "$tree/crates/nd_other/src"
echo 'this is no Rust' > "$tree/crates/nd_other/src/lib.rt"
echo 'an old program' > "$tree/$program"
status "$tree/build"
[ "$got" -eq 1 ] || fail "a crate that isn't proved ends ./build with status $got: $(cat "$folder/out" "$folder/said")"
grep -q '^nd_low is not proved, so the program is not built$' "$folder/out" || fail "./build doesn't say which crate isn't proved: $(cat "$folder/out")"
[ ! -e "$tree/$program" ] || fail './build leaves a program that is not proved'
sed -i 's/^    0$/    x/' "$tree/crates/nd_low/src/lib.rt"
status "$tree/build"
[ "$got" -eq 0 ] || fail "./build ends with status $got: $(cat "$folder/out" "$folder/said")"
[ "$("$tree/$program")" = 3 ] || fail 'the built program is another one'
grep -q ' % of the proofs, some ' "$folder/out" || fail "./build doesn't say how far it is: $(cat "$folder/out")"
[ ! -e "$tree/out/build" ] || fail './build leaves its copies'
(cd "$tree" && sha256sum --check --status "$program.sources") || fail './build notes other sources than those of the program'
status "$tree/build"
[ "$got" -eq 0 ] || fail "a second ./build ends with status $got"
grep -q '^nothing has changed' "$folder/out" || fail "./build proves again what it has proved: $(cat "$folder/out")"
echo "first: ./try has the right replies, and it and ./build refuse what they should"
