# Completion of snap-explain's words for bash.
_snap_explain() {
  local word=${COMP_WORDS[COMP_CWORD]} at=2
  if [ "$COMP_CWORD" -eq 1 ]; then
    COMPREPLY=($(compgen -W "stream unused review mask front --help --version" -- "$word"))
    return 0
  fi
  if { [ "${COMP_WORDS[1]}" = stream ] || [ "${COMP_WORDS[1]}" = unused ]; } && [ "$COMP_CWORD" -eq 2 ]; then
    COMPREPLY=($(compgen -d -- "$word"))
    return 0
  fi
  if [ "${COMP_WORDS[1]}" = stream ] && [ "$COMP_CWORD" -le 4 ]; then
    COMPREPLY=($(compgen -W "--json --literal" -- "$word"))
    return 0
  fi
  if [ "${COMP_WORDS[1]}" = review ] && [ "$COMP_CWORD" -eq 2 ]; then
    COMPREPLY=($(compgen -W "accept reject accept-file reject-file" -- "$word"))
    return 0
  fi
  if [ "${COMP_WORDS[1]}" = review ] && [ "$COMP_CWORD" -eq 3 ]; then
    compopt -o filenames 2>/dev/null
    COMPREPLY=($(compgen -f -- "$word"))
    return 0
  fi
  if [ "${COMP_WORDS[1]}" = front ] && [ "$COMP_CWORD" -eq 2 ]; then
    COMPREPLY=($(compgen -W "get set remove format" -- "$word"))
    return 0
  fi
  [ "${COMP_WORDS[1]}" = mask ] || return 0
  # Whether a rule may begin here: --put takes two words, --sort one.
  while [ "$at" -lt "$COMP_CWORD" ]; do
    case ${COMP_WORDS[at]} in
      --put) at=$((at + 3)) ;;
      --sort) at=$((at + 2)) ;;
      *) return 0 ;;
    esac
  done
  [ "$at" -ne "$COMP_CWORD" ] || COMPREPLY=($(compgen -W "--put --sort" -- "$word"))
}
complete -F _snap_explain snap-explain
