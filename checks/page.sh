#!/bin/sh
# Opens pages of runs, index.html, in a headless Chromium and looks at them:
#
#     checks/page.sh [-k] [PICTURE]
#
# 1. 5,000 derivations on 64 slots take well under a second of a processor to make, and are drawn in under a second
# 2. the counts are those of report.json, there is a bar for each copy and build of trace.json and a row for each slot,
#    and the search finds what is looked for
# 3. failures, their logs, machines that were down, the longest chain and what a bar tells are there
# 4. names, machines, causes and logs that would be markup are text
# 5. on a phone nothing is wider than the screen, and in the dark the page is dark
# 6. the page of a run that goes on is read again by itself, and one that isn't written any more says so
# 7. nothing but the file itself is asked for, and nothing is said on the console
#
# The runs are made up, so neither Nix nor the program is needed: only Chromium, as Debian's chromium has it, and Python 3.
# A picture is kept in PICTURE, as docs/page.png. With -k the folder with all that was made stays.
set -eu

keep=''
if [ "${1-}" = -k ]; then keep=yes; shift; fi
if [ $# -gt 1 ]; then echo 'usage: checks/page.sh [-k] [PICTURE]' >&2; exit 2; fi
for command in chromium python3; do
  command -v "$command" > /dev/null || { echo "page: there is no $command (Debian: chromium, python3)" >&2; exit 2; }
done
top=$(cd "$(dirname "$0")/.." && pwd)
folder=$(mktemp -d)
# shellcheck disable=SC2317  # the trap calls it
clean_up() {
  if [ -n "$keep" ]; then echo "page: $folder"; else rm -rf "$folder"; fi
}
trap clean_up EXIT

for kind in large small odd going killed; do
  took=$(python3 "$top/checks/page/made.py" "$folder/$kind" "$kind")
  [ "$kind" != large ] || large=$took
done
case $large in
  0.*) echo "large: made in $large s" ;;
  *) echo "page: 5,000 derivations took $large s of a processor to make" >&2; exit 1 ;;
esac
python3 "$top/checks/page/look.py" "$folder"
if [ $# -gt 0 ]; then
  python3 "$top/checks/page/made.py" "$folder/nightly" small > /dev/null
  python3 "$top/checks/page/look.py" "$folder/nightly" "$1"
fi
echo 'page: the counts, the bars and the search are right, and no text is markup'
