# Completion of snap's words for bash.
_snap() {
  local word=${COMP_WORDS[COMP_CWORD]} flags=" --force --force-pass --full --literal " at
  [ "$COMP_CWORD" -eq 1 ] || [ "${COMP_WORDS[1]}" = run ] || return 0
  case $COMP_CWORD in
    1) COMPREPLY=($(compgen -W "run demo explain front mask review --help --version" -- "$word")) ;;
    2) COMPREPLY=($(compgen -W "inplace new no" -- "$word")) ;;
    3) COMPREPLY=($(compgen -d -- "$word")) ;;
    *)
      # A flag is given once.
      for ((at = 4; at < ${#COMP_WORDS[@]}; at++)); do
        [ "$at" -eq "$COMP_CWORD" ] || flags=${flags/" ${COMP_WORDS[at]} "/ }
      done
      COMPREPLY=($(compgen -W "$flags" -- "$word"))
      ;;
  esac
}
complete -F _snap snap
