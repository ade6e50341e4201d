# What fish offers after some words: fish --no-config offers.fish COMPLETIONS pgboard WORD..
source $argv[1]
complete -C "$argv[2..]"
