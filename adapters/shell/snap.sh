# Snapshots of text, for scripts in sh or bash: source this file, then `some command | snapshot NAME`. See README.md.

# snapshot NAME judges the text on standard input as the snapshot NAME of the script that calls it. Returns 0 where it
# passes or was updated, 1 with the verdict and a unified diff on standard error where it doesn't, 2 where NAME is none
# or the text can't be handed over, and 3 or more where the program refused: its own status, with its words.
# The body is a subshell, so that no variable of the caller's is touched.
snapshot() (
  if [ $# -ne 1 ] || [ -z "$1" ]; then
    echo "snapshot: usage: snapshot NAME <TEXT" >&2
    exit 2
  fi
  set +e +C # the caller's settings must not end this before the diff
  name=$1
  file=$0
  line=0
  if [ -n "${BASH_VERSION-}" ]; then
    # Other shells don't know where a function was called.
    eval 'file=${BASH_SOURCE[1]:-$0} line=${BASH_LINENO[0]:-0}'
  fi
  mode=$(snap_mode) || exit 2
  scratch=$(mktemp -d "${TMPDIR:-/tmp}/snapshot.XXXXXX") || exit 2
  trap 'rm -rf "$scratch"' EXIT
  trap 'exit 129' HUP
  trap 'exit 130' INT
  trap 'exit 143' TERM

  cat >"$scratch/text"
  if command -v iconv >/dev/null && ! iconv -f UTF-8 -t UTF-8 "$scratch/text" >/dev/null 2>"$scratch/words"; then
    echo "snapshot $name: the text is no UTF-8: hand over its base64, for one: $(cat "$scratch/words")" >&2
    exit 2
  fi
  base=${file##*/}
  folder=$(dirname -- "$file")
  {
    printf -- '---\n{"module":%s,"file":%s,"line":%s,' "$(printf %s "${base%.*}" | snap_quote)" \
      "$(printf %s "$base" | snap_quote)" "$line"
    quoted=$(printf %s "$name" | snap_quote)
    printf '"name":%s,"expr":%s,"value":{"text":%s}}\n' "$quoted" "$quoted" "$(snap_quote <"$scratch/text")"
  } >"$scratch/request"

  found=$("${SNAP:-snap}" run "$mode" "$folder" --literal <"$scratch/request" 2>"$scratch/words")
  status=$?
  if [ "$status" -gt 1 ]; then
    echo "snapshot $name: $file:$line: $(cat "$scratch/words")" >&2
    snap_reasons "$folder" <"$scratch/request" >&2
  elif [ "$status" -eq 1 ]; then
    echo "snapshot $name: $file:$line: $found; SNAP_UPDATE=1 approves it" >&2
    snap_explain "$scratch" "$folder" >&2
  fi
  exit "$status"
)

# Whether a variable's text is anything but nothing, `0`, `no` and `false`, in any case.
snap_says_yes() {
  case $1 in
    '' | 0 | [Nn][Oo] | [Ff][Aa][Ll][Ss][Ee]) return 1 ;;
  esac
}

# Prints the mode: SNAP_MODE, else inplace where SNAP_UPDATE is 1, else no where CI says yes, else new.
snap_mode() {
  case ${SNAP_MODE-} in
    inplace | new | no) echo "$SNAP_MODE" ;;
    '') if [ "${SNAP_UPDATE-}" = 1 ]; then echo inplace; elif snap_says_yes "${CI-}"; then echo no; else echo new; fi ;;
    *)
      echo "snapshot: SNAP_MODE is $SNAP_MODE, and none of inplace, new, no" >&2
      return 1
      ;;
  esac
}

# Writes standard input, which is UTF-8, as a JSON text: byte by byte, so that each line end and each NUL is kept.
snap_quote() {
  od -An -v -tu1 | LC_ALL=C awk '
    BEGIN { printf "\"" }
    { for (at = 1; at <= NF; at++)
        if ($at < 32 || $at == 127) printf "\\u%04x", $at
        else if ($at == 34 || $at == 92) printf "\\%c", $at + 0
        else printf "%c", $at + 0 }
    END { printf "\"" }'
}

# snap_reasons FOLDER prints what snap-explain says of the request on standard input, where it is beside the program.
snap_reasons() {
  found=$(command -v -- "${SNAP:-snap}") || return 0
  SNAP_AS_BUILT=1 "$(dirname -- "$found")/snap-explain" stream "$1" --literal 2>/dev/null || true
}

# snap_explain SCRATCH FOLDER prints a diff of the stored body, in FOLDER, and the new one, by a run in SCRATCH.
snap_explain() {
  "${SNAP:-snap}" run inplace "$1/w" --literal <"$1/request" >/dev/null
  new=$(find "$1/w/snapshots" -type f)
  stored=$2/snapshots/${new##*/}
  [ -e "$stored" ] || stored=/dev/null
  snap_body "$stored" >"$1/stored"
  snap_body "$new" >"$1/new"
  diff -u --label stored --label new "$1/stored" "$1/new" &&
    echo "The bodies agree: the header of the file lets no value pass."
}

# Prints what stands below the header of a snapshot, without what doesn't count: white space at its end, carriage returns.
snap_body() {
  sed 's/\r$//' "$1" | awk '
    NR == 1 { end = /^---[ \t]*$/ ? "---" : ""; next }
    !below { line = $0; sub(/[ \t]+$/, "", line); below = line == end; next }
    /^[ \t]*$/ { kept = kept $0 "\n"; next }
    { printf "%s%s\n", kept, $0; kept = "" }'
}
