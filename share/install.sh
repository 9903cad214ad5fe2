#!/bin/sh
# Puts what is in this folder below another: ./install.sh PREFIX, as /usr/local or "$HOME/.local".
# ./install.sh --remove PREFIX takes it away again, with the folders that were made for it and are empty.
set -eu
# What was put there: `folder` or a file's sum, two blanks, and the path below the prefix.
list=share/snap/unpacked

# The lines of what is put below $1, from the folder of this script.
describe() {
  [ -d "$1" ] || echo 'folder  .'
  { find bin libexec share -type d && echo "${list%/*}"; } | sort -u | while IFS= read -r path; do
    [ -d "$1/$path" ] || echo "folder  $path"
  done
  find bin libexec share -type f | sort | while IFS= read -r path; do
    sha256sum "$path"
  done
}

put() {
  prefix=$(readlink -m "$1")
  # What an earlier version put there goes first.
  [ ! -f "$prefix/$list" ] || (remove "$prefix" >/dev/null)
  cd "$(dirname "$(readlink -f "$0")")"
  lines=$(describe "$prefix")
  # The list comes first, so that a removal takes what a broken installation left.
  mkdir -p "$prefix/${list%/*}"
  printf '%s\n' "$lines" >"$prefix/$list"
  find bin libexec share -type f | while IFS= read -r path; do
    mode=644
    [ ! -x "$path" ] || mode=755
    install -D -m "$mode" "$path" "$prefix/$path"
  done
  echo "snap: installed as $prefix/bin/snap"
}

# A file that isn't as it was put there is another's, and stays.
remove() {
  if [ ! -f "$1/$list" ]; then
    echo "snap: install.sh has put nothing below $1" >&2
    exit 1
  fi
  cd "$1"
  sed '/^folder  /d' "$list" | while IFS= read -r line; do
    path=${line#*  }
    [ "$(sha256sum "$path" 2>/dev/null)" != "$line" ] || rm -f "$path"
  done
  folders=$(sed -n 's/^folder  //p' "$list" | LC_ALL=C sort -r)
  rm -f "$list"
  printf '%s\n' "$folders" | while IFS= read -r path; do
    # The prefix itself is the point, and the last of them.
    rmdir "$PWD/${path#.}" 2>/dev/null || true
  done
  echo "snap: removed from $PWD"
}

case $#:${1-} in
  2:--remove) remove "$2" ;;
  1:-*) echo "usage: ./install.sh PREFIX | ./install.sh --remove PREFIX" >&2; exit 2 ;;
  1:?*) put "$1" ;;
  *) echo "usage: ./install.sh PREFIX | ./install.sh --remove PREFIX" >&2; exit 2 ;;
esac
