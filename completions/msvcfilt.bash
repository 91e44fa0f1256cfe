# Completes the words of msvcfilt in bash: options, and files.
_msvcfilt() {
  local options='-s --symbols -n --name-only --no-calling-convention --no-return-type --no-access-specifier
    --no-member-type --no-variable-type --no-function-returns --no-this-type --no-class-type --with-ptr64
    --ms-typenames --space-after-comma --hug-type --space-before-pointer --flags --grammar --color -h --help
    -V --version'
  COMPREPLY=()
  if [[ $3 == --flags ]]; then
    compopt +o default
  elif [[ $3 == --grammar ]]; then
    COMPREPLY=($(compgen -W 'full crate' -- "$2"))
  elif [[ $3 == --color ]]; then
    COMPREPLY=($(compgen -W 'auto always never' -- "$2"))
  elif [[ $2 == -* && " ${COMP_WORDS[*]:0:COMP_CWORD} " != *' -- '* ]]; then
    COMPREPLY=($(compgen -W "$options" -- "$2"))
  fi
}
complete -o default -F _msvcfilt msvcfilt
