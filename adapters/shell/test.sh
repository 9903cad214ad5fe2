#!/bin/sh
# Tries snap.sh, in sh and in bash where that is there, and snap-lines, by Python and by jq where they are there.
# The program is $SNAP, or `snap` on the path. Status 1 where an expectation fails.
set -u
here=$(cd "$(dirname "$0")" && pwd)
case ${SNAP-} in */*) SNAP=$(cd "$(dirname "$SNAP")" && pwd)/${SNAP##*/} ;; esac
export SNAP="${SNAP:-snap}"
unset CI SNAP_MODE SNAP_UPDATE
work=$(mktemp -d) || exit 1
trap 'rm -rf "$work"' EXIT
failed=0

# expect WHAT WANTED GOT
expect() {
  [ "$2" = "$3" ] && return
  printf 'FAILED: %s\n--- wanted\n%s\n--- got\n%s\n' "$1" "$2" "$3"
  failed=1
}

# body FILE: what stands below the header, with an end mark, so that line ends at the end are seen.
body() {
  sed '1,/^---$/{1!{/^---$/!d}}' "$1" | sed '1,2d'
  echo .
}

try_snapshot() {
  shell=$1
  top=$work/$shell
  shots=$top/t/snapshots
  mkdir -p "$top/t"
  cat >"$top/t/report.sh" <<END
. "$here/snap.sh"
printf '%b' "\$1" | snapshot "\$2"
END
  run() {
    words=$(cd "$top" && "$shell" t/report.sh "$@" 2>&1)
    status=$?
  }

  run 'one\ntwo\n' 'first'
  expect "$shell: a first value's status" 1 "$status"
  line=0
  [ "$shell" = bash ] && line=2
  expect "$shell: a first value" "snapshot first: t/report.sh:$line: pending t/snapshots/report__first.snap; SNAP_UPDATE=1 approves it
--- stored
+++ new
@@ -0,0 +1,3 @@
+text: |
+  one
+  two" "$words"
  SNAP_UPDATE=1 run 'one\ntwo\n' 'first'
  expect "$shell: an update" "0" "$status$words"
  expect "$shell: the file" "---
source: report.sh
expression: first
---
text: |
  one
  two" "$(cat "$shots/report__first.snap")"
  CI=1 run 'one\ntwo\n' 'first'
  expect "$shell: a value that passes" "0" "$status$words"
  CI=1 run 'one\nTWO\nthree\n' 'first'
  expect "$shell: a changed value" "1 snapshot first: t/report.sh:$line: rejected t/snapshots/report__first.snap; SNAP_UPDATE=1 approves it
--- stored
+++ new
@@ -1,3 +1,4 @@
 text: |
   one
-  two
+  TWO
+  three" "$status $words"
  expect "$shell: nothing was written" "report__first.snap" "$(ls "$shots")"
  CI=1 run 'one\ntwo' 'first'
  expect "$shell: the last line end counts" 1 "$status"

  CI=1 run 'one\n\ntwo\n' 'first'
  expect "$shell: an empty line in a diff" "@@ -1,3 +1,4 @@
 text: |
   one
+  
   two" "$(echo "$words" | tail -n 5)"

  # Names and texts with all that JSON escapes, a NUL, a tab, emoji and a blank at the front.
  SNAP_UPDATE=1 run 'a "b" \\ \t \0001 é 😀' 'a "b" \ c'
  expect "$shell: characters" 'text: "a \"b\" \\ \t \u0001 é 😀"
.' "$(body "$shots/report__a \"b\" __ c.snap")"
  SNAP_UPDATE=1 run 'a\0000b' 'nul'
  expect "$shell: NUL" 'text: "a\u0000b"
.' "$(body "$shots/report__nul.snap")"
  SNAP_UPDATE=1 run '' 'empty'
  expect "$shell: an empty text" 'text: ""
.' "$(body "$shots/report__empty.snap")"

  run '\0377' 'bytes'
  expect "$shell: no UTF-8" 2 "$status"
  expect "$shell: no UTF-8, in words" "snapshot bytes: the text is no UTF-8: hand over its base64, for one:" \
    "$(echo "$words" | sed 's/: iconv: .*/:/')"
  run 'x' ''
  expect "$shell: no name" "2 snapshot: usage: snapshot NAME <TEXT" "$status $words"
  SNAP_MODE=yes run 'x' 'mode'
  expect "$shell: a wrong mode" "2 snapshot: SNAP_MODE is yes, and none of inplace, new, no" "$status $words"
  # Scripts ask for it too, for their JSON lines.
  words=$(for set in A=1 CI= CI=0 CI=False CI=1 SNAP_UPDATE=0 'CI=1 SNAP_UPDATE=1' 'SNAP_UPDATE=1 SNAP_MODE=new'; do
    env $set "$shell" -c ". '$here/snap.sh'; snap_mode"
  done)
  expect "$shell: modes" "new new new new no new inplace new" "$(echo $words)"
  mkdir "$shots/report__folder.snap"
  SNAP_MODE=inplace run 'x' 'folder'
  expect "$shell: a fault" "5 snapshot folder: t/report.sh:$line: snap: document 1: file fault at t/snapshots/report__folder.snap" "$status $words"
  printf -- '---\nsnapshot_kind: binary\nextension: b\n---\ntext: x\n' >"$shots/report__kind.snap"
  CI=1 run 'x' 'kind'
  expect "$shell: a header that lets nothing pass" "The bodies agree: the header of the file lets no value pass." "$(echo "$words" | tail -n 1)"

  # The caller's settings and variables are left alone, and don't keep the diff away.
  cat >"$top/t/strict.sh" <<END
set -eu -C
. "$here/snap.sh"
name=mine
printf 'x' | snapshot strict || echo "status \$? \$name"
SNAP_MODE=inplace snapshot strict <"$top/t/text"
SNAP_MODE=no snapshot strict <"$top/t/other"
echo 'not reached'
END
  printf 'x' >"$top/t/text"
  printf 'y' >"$top/t/other"
  words=$(cd "$top" && "$shell" t/strict.sh 2>/dev/null)
  expect "$shell: set -e" "1 status 1 mine" "$? $words"
  words=$(cd "$top" && "$shell" t/strict.sh 2>&1 | tail -n 2)
  expect "$shell: set -e, the diff" "-text: x
+text: y" "$words"
  # What a refusal says has the words of the program beside; scripts stand in the place of both.
  printf '#!/bin/sh\necho "snap: document 1 is no request" >&2\nexit 3\n' >"$top/snap"
  printf '#!/bin/sh\n[ "$*" = "stream t --literal" ] && sed -n "s/^---$/document 1, line 2: why/p"\nexit 1\n' >"$top/snap-explain"
  chmod +x "$top/snap" "$top/snap-explain"
  SNAP=$top/snap run 'x' 'why'
  expect "$shell: a refusal" "3 snapshot why: t/report.sh:$line: snap: document 1 is no request
document 1, line 2: why" "$status $words"
  SNAP=/nowhere/snap run 'x' 'gone'
  expect "$shell: a program that is not there" 127 "$status"
}

# real TOOL: its path; of Python the interpreter's own, since what is on the path may be a script.
real() {
  if [ "$1" = python3 ]; then python3 -c 'import sys; print(sys.executable)'; else command -v "$1"; fi
}

# try_lines TOOL: with a path that holds the other tools alone.
try_lines() {
  tool=$1
  mkdir -p "$work/$tool"
  for each in sh awk cat; do ln -s "$(command -v "$each")" "$work/$tool/$each"; done
  ln -s "$(real "$tool")" "$work/$tool/$tool"
  lines() { words=$(PATH=$work/$tool "$here/snap-lines" "$@" 2>"$work/refused"); status=$?; }
  text='{"id":"a","n":[1,-0,1.50,1e3,340282366920938463463374607431768211455,-170141183460469231731687303715884105728]}

{"id": 9007199254740991, "t": "\ud83d\ude00 \/ \\ud83d \u00e9 \u0001 \"", "z": [true,null], "a": {}}
["9007199254740993", 9007199254740993, ""]'
  lines --file t/log.sh <<END
$text
END
  expect "$tool: a stream" '0 ---
{"module":"log","file":"t/log.sh","line":1,"name":"1","expr":"line 1","value":{"id":"a","n":[1,0,"1.50","1e3",340282366920938463463374607431768211455,-170141183460469231731687303715884105728]}}
---
{"module":"log","file":"t/log.sh","line":3,"name":"3","expr":"line 3","value":{"id":9007199254740991,"t":"😀 / \\ud83d é \u0001 \"","z":[true,null],"a":{}}}
---
{"module":"log","file":"t/log.sh","line":4,"name":"4","expr":"line 4","value":["9007199254740993",9007199254740993,""]}' "$status $words"
  expect "$tool: nothing is refused" "" "$(cat "$work/refused")"
  expect "$tool: the program reads it" "updated w/t/snapshots/log__1.snap
updated w/t/snapshots/log__3.snap
updated w/t/snapshots/log__4.snap" "$(cd "$work/$tool" && printf '%s\n' "$words" | "$SNAP" run inplace w)"

  key=$(printf 'k%.0s' 1 2 3 4 5 6 7 8 9 10)
  end=12345678901234567890123
  key=$key$key$key$key$key$key$key$key$key$key
  lines --file log.sh --module m --name id <<END
{"id":"x","v":1}
{"id":7}
{"id":"x"}
{"id":1.5}
{}
[1]
{"id":"b","v":340282366920938463463374607431768211456}
{"id":"b","v":-170141183460469231731687303715884105729}
{"id":"b","v":"\ud83d"}
{"id":"b","v":1,"v":2}
{"id":"b","v":NaN}
{"id":"b","v":01}
{"id":"b"
{"id":"b","$key$key$key$key$key$key$key$key$key$key$end":0}
$(printf '{"id":"\377"}')
{"id":"b/c"}
{"id":"b__c"}
{"id":"b"}
{"id":"k","$key$key$key$key$key$key$key$key$key$key${end%?}":0}
END
  expect "$tool: what is refused, and the others" '1 {"module":"m","file":"log.sh","line":1,"name":"x","expr":"line 1","value":{"id":"x","v":1}}
{"module":"m","file":"log.sh","line":2,"name":"7","expr":"line 2","value":{"id":7}}
{"module":"m","file":"log.sh","line":16,"name":"b/c","expr":"line 16","value":{"id":"b/c"}}
{"module":"m","file":"log.sh","line":18,"name":"b","expr":"line 18","value":{"id":"b"}}
{"module":"m","file":"log.sh","line":19,"name":"k","expr":"line 19","value":{"id":"k","'"$key$key$key$key$key$key$key$key$key$key${end%?}"'":0}}' "$status $(echo "$words" | grep -v '^---$')"
  expect "$tool: the refused lines" "3 4 5 6 7 8 9 10 11 12 13 14 15 17" \
    "$(sed 's/^snap-lines: line \([0-9]*\): .*/\1/' "$work/refused" | tr '\n' ' ' | sed 's/ $//')"
  for reason in '3: the name x: line 1 has it' '5: .id: no name' \
    '7: a whole number of more than 128 bits, 340282366920938463463374607431768211456: hand it over as a text' \
    '9: a text with a lone surrogate' '10: two keys with one text' '14: a key of more than 1024 characters'; do
    expect "$tool: $reason" 1 "$(grep -c "line $reason" "$work/refused")"
  done
}

try_snapshot sh
if command -v bash >/dev/null; then try_snapshot bash; else echo 'skipped: bash is not there'; fi
for tool in python3 jq; do
  if command -v "$tool" >/dev/null; then try_lines "$tool"; else echo "skipped: $tool is not there"; fi
done
mkdir "$work/none" "$work/broken"
ln -s "$(command -v sh)" "$work/none/sh"
for each in sh awk cat; do ln -s "$(command -v "$each")" "$work/broken/$each"; done
printf '#!/bin/sh\nexit 5\n' >"$work/broken/jq"
chmod +x "$work/broken/jq"
words=$(echo 1 | PATH=$work/broken "$here/snap-lines" --file f 2>&1)
expect "a jq that fails" 1 "$?$words"
words=$(PATH=$work/none "$here/snap-lines" --file f 2>&1 </dev/null)
expect "neither tool" "2 snap-lines: neither python3 nor jq is there: install one of them" "$? $words"
words=$("$here/snap-lines" --name id 2>&1 </dev/null)
expect "no file" "2 snap-lines: usage: snap-lines --file FILE [--module MODULE] [--name FIELD] <LINES" "$? $words"
[ "$failed" = 0 ] && echo 'adapters/shell: all expectations hold'
exit "$failed"
