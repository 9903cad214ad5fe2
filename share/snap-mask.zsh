#compdef snap-mask
# Completion of snap-mask's words for zsh.
_snap-mask() {
  local -i at=2
  # Whether a rule may begin here: --put takes two words, --sort one.
  while (( at < CURRENT )); do
    case $words[at] in
      --put) at=$((at + 3)) ;;
      --sort) at=$((at + 2)) ;;
      *) return 1 ;;
    esac
  done
  if (( at != CURRENT )); then
    return 1
  elif (( at == 2 )); then
    compadd -- --put --sort --help --version
  else
    compadd -- --put --sort
  fi
}
_snap-mask "$@"
