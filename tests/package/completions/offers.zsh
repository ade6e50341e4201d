# What zsh offers after some words: zsh -f offers.zsh COMPLETIONS pgboard WORD..
_describe() { print -l -- ${commands%%:*} }
_arguments() {
    local before=$words[CURRENT-1] it
    for it; do
        case $it in
        $before'['*:_files) print -l -- * && return ;;
        $before'['*) eval "print -l -- ${${it##*\(}%\)}" && return ;;
        esac
    done
    if [[ $words[CURRENT] = -* ]]; then print -l -- ${${(M)@:#--*}%%\[*}
    elif (($@[(I)\*:file:_files])); then print -l -- *
    fi
}
run() { local words=("$@") CURRENT=$#; source $file }
file=$1
shift
run "$@"
