#compdef snap-front
# Completion of snap-front's words for zsh.
_snap-front() {
  (( CURRENT == 2 )) || return 1
  compadd -- get set remove format --help --version
}
_snap-front "$@"
