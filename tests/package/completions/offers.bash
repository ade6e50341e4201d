# What bash offers after some words: bash offers.bash COMPLETIONS pgboard WORD..
source "$1"
shift
COMP_WORDS=("$@") COMP_CWORD=$(($# - 1))
_pgboard "$1"
printf '%s\n' "${COMPREPLY[@]}"
if [ ${#COMPREPLY[@]} = 0 ] && [[ $(complete -p pgboard) == *' -o default '* ]]; then compgen -f; fi
