# Completes the words of undname in fish: an option, which comes first. Any other word is a symbol.
complete -c undname -f
complete -c undname -n __fish_is_first_arg -s v -d 'print trees on standard error'
