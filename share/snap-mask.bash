# Completion of snap-mask's words for bash.
_snap_mask() {
  local word=${COMP_WORDS[COMP_CWORD]} at=1
  # Whether a rule may begin here: --put takes two words, --sort one.
  while [ "$at" -lt "$COMP_CWORD" ]; do
    case ${COMP_WORDS[at]} in
      --put) at=$((at + 3)) ;;
      --sort) at=$((at + 2)) ;;
      *) return 0 ;;
    esac
  done
  [ "$at" -eq "$COMP_CWORD" ] || return 0
  if [ "$at" -eq 1 ]; then
    COMPREPLY=($(compgen -W "--put --sort --help --version" -- "$word"))
  else
    COMPREPLY=($(compgen -W "--put --sort" -- "$word"))
  fi
}
complete -F _snap_mask snap-mask
