#compdef snap-explain
# Completion of snap-explain's words for zsh.
_snap-explain() {
  local -i at=3
  if (( CURRENT == 2 )); then
    compadd -- stream unused review mask front --help --version
    return
  fi
  if [[ $words[2] == (stream|unused) ]] && (( CURRENT == 3 )); then
    _files -/
    return
  fi
  if [[ $words[2] == stream ]] && (( CURRENT <= 5 )); then
    compadd -- --json --literal
    return
  fi
  if [[ $words[2] == review ]]; then
    case $CURRENT in
      3) compadd -- accept reject accept-file reject-file ;;
      4) _files ;;
      *) return 1 ;;
    esac
    return
  fi
  if [[ $words[2] == front ]] && (( CURRENT == 3 )); then
    compadd -- get set remove format
    return
  fi
  [[ $words[2] == mask ]] || return 1
  # Whether a rule may begin here: --put takes two words, --sort one.
  while (( at < CURRENT )); do
    case $words[at] in
      --put) at=$((at + 3)) ;;
      --sort) at=$((at + 2)) ;;
      *) return 1 ;;
    esac
  done
  (( at == CURRENT )) && compadd -- --put --sort
}
_snap-explain "$@"
