# Completion of pgboard for bash: what the help lists, else files. The script's own options come before the command.
_pgboard() {
    local word=${COMP_WORDS[COMP_CWORD]} last=${COMP_WORDS[COMP_CWORD - 1]} command=() help words= at=1
    while [[ $at -lt $COMP_CWORD && ${COMP_WORDS[at]} = --* ]]; do ((at++)); done
    if [[ $COMP_CWORD -gt $at && ${COMP_WORDS[at]} = [a-z]* && ${COMP_WORDS[at]} != help ]]; then
        command=("${COMP_WORDS[at]}")
    fi
    if [[ $COMP_CWORD = "$at" && $last != --install ]]; then last=; fi
    help=$("$1" "${command[@]}" -h 2>/dev/null)
    case $last:$word in
    --*[!a-z-]*:*) ;;
    --*:*) words=$(seq $(sed -En "s/^ +$last <.* ([0-9]+) to ([0-9]+).*/\1 \2/p" <<<"$help") 2>/dev/null) ;;
    *:-*) words=$(sed -En 's/^ +(-.( [A-Z]+)?, )?(--[a-z-]+).*/\3/p' <<<"$help") ;;
    *) if [[ ${#command[@]} = 0 ]]; then words=$(sed -En 's/^  ([a-z]+) .*/\1/p' <<<"$help"); fi ;;
    esac
    COMPREPLY=($(compgen -W "$words" -- "$word"))
}
complete -o bashdefault -o default -F _pgboard pgboard
