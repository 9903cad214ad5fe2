#compdef snap
# Completion of snap's words for zsh.
_snap() {
  local -a flags given
  if (( CURRENT == 2 )); then
    compadd -- run demo explain front mask review --help --version
  elif [[ $words[2] != run ]]; then
    return 1
  elif (( CURRENT == 3 )); then
    compadd -- inplace new no
  elif (( CURRENT == 4 )); then
    _files -/
  else
    # A flag is given once.
    flags=(--force --force-pass --full --literal)
    given=("${(@)words[5,CURRENT-1]}" "${(@)words[CURRENT+1,-1]}")
    compadd -- ${flags:|given}
  fi
}
_snap "$@"
