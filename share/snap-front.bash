# Completion of snap-front's words for bash.
_snap_front() {
  [ "$COMP_CWORD" -eq 1 ] || return 0
  COMPREPLY=($(compgen -W "get set remove format --help --version" -- "${COMP_WORDS[COMP_CWORD]}"))
}
complete -F _snap_front snap-front
