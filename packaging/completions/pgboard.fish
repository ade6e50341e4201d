# Completion of pgboard for fish: what the help lists, else files. The script's own options come before the command.
function __pgboard_words
    set -l before (commandline -opc)
    command -q $before[1]; or return 1
    set -l at 2
    while string match -q -- '--*' "$before[$at]"
        set at (math $at + 1)
    end
    set -l word (string match -r '^(?!help$)[a-z]+$' -- "$before[$at]")
    set -l help (command $before[1] $word -h 2>/dev/null)
    set -l flag (string escape --style=regex -- $before[-1])
    set -l numbers (string replace -rf "^ +$flag <.* (\d+) to (\d+).*" '$1\n$2' -- $help)
    if set -q numbers[1]
        seq $numbers
    else if string match -q -- '-*' (commandline -ct)
        string replace -rf '^ +(?:-.(?: [A-Z]+)?, )?(--[a-z-]+)(?: <?[A-Z]+>?| \[[A-Z]+\])?(?: +(.*))?$' '$1\t$2' -- $help
    else if not set -q word[1]
        string replace -rf '^  ([a-z]+) +(.*)' '$1\t$2' -- $help
    end
end
complete -c pgboard -n 'count (__pgboard_words) >/dev/null' -f -a '(__pgboard_words)'
