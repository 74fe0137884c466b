#!/bin/sh
# Runs the built program on the example that Nix wrote: the replies are those of `examples/farm/replies`,
# which another program worked out from the rules, from standard input and by `--bundle`; each line's path
# is the one that `path` prints for its name and text; and `--check-paths` takes the whole bundle.
set -eu
cd "$(dirname "$0")/.."
program=crates/nix_dispatch/out/nix_dispatch
farm=examples/farm

"$program" ask --builders "@$farm/builders" < "$farm/bundle" | cmp - "$farm/replies"
"$program" ask --check-paths --builders "@$farm/builders" < "$farm/bundle" | cmp - "$farm/replies"
"$program" ask --bundle "$farm/bundle" --builders "@$farm/builders" < /dev/null | cmp - "$farm/replies"
lines=0
while read -r path text; do
  name=$(printf '%s' "$path" | cut -c45-)
  own=$(printf '%s' "$text" | "$program" path "$name")
  [ "$own" = "$path" ] || { echo "$path: path prints $own"; exit 1; }
  lines=$((lines + 1))
done < "$farm/bundle"
echo "farm: the replies are right, and $lines of $lines lines have their own path"
