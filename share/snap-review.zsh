#compdef snap-review
# Completion of snap-review's words for zsh.
_snap-review() {
  case $CURRENT in
    2) compadd -- accept reject accept-file reject-file list accept-all reject-all walk --help --version ;;
    3) _files ;;
    *) return 1 ;;
  esac
}
_snap-review "$@"
