# Completes the words of undname in bash: an option, which comes first. Any other word is a symbol.
_undname() {
  COMPREPLY=()
  if [[ $COMP_CWORD == 1 ]]; then
    COMPREPLY=($(compgen -W -v -- "$2"))
  fi
}
complete -F _undname undname
