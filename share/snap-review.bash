# Completion of snap-review's words for bash.
_snap_review() {
  local word=${COMP_WORDS[COMP_CWORD]}
  if [ "$COMP_CWORD" -eq 1 ]; then
    COMPREPLY=($(compgen -W "accept reject accept-file reject-file list accept-all reject-all walk --help --version" -- "$word"))
  elif [ "$COMP_CWORD" -eq 2 ]; then
    compopt -o filenames 2>/dev/null
    COMPREPLY=($(compgen -f -- "$word"))
  fi
}
complete -F _snap_review snap-review
