#!/bin/sh
# Snapshots what a real program prints, here `sort`; the exit status tells how it compares with what was approved.
# Usage: sorted.sh MODE WORKSPACE. The program is $SNAP, or `snap` in the folder above.
set -u
snap=${SNAP:-$(dirname "$0")/../snap}

# A request is a heredoc; each line that `sort` prints is an item of its value.
{
  cat <<'REQUEST'
---
module: fruits
file: sorted.sh
line: 20
name: sorted
expr: sort -u
value:
REQUEST
  sort -u <<'FRUITS' | sed 's/^/  - /'
pear
apple
fig
apple
FRUITS
} | "$snap" run "$1" "$2"
status=$?

case $status in
0) echo "sorted.sh: nothing changed that is not approved" >&2 ;;
1) echo "sorted.sh: the output changed: look at it, and approve it by moving .snap.new over .snap" >&2 ;;
*) echo "sorted.sh: the values could not be compared" >&2 ;;
esac
exit "$status"
