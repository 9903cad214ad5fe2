# Completion of snap-mask's words for fish.

# Whether a rule may begin here: --put takes two words, --sort one.
function __snap_mask_at_rule
    set -l words (commandline -opc)
    set -l at 2
    while test $at -le (count $words)
        switch $words[$at]
            case --put
                set at (math $at + 3)
            case --sort
                set at (math $at + 2)
            case '*'
                return 1
        end
    end
    test $at -eq (math (count $words) + 1)
end

# Whether it is the first word.
function __snap_mask_at_first
    test (count (commandline -opc)) -eq 1
end

complete -c snap-mask -f
complete -c snap-mask -n __snap_mask_at_rule -l put -d 'Put a text in place of what a selector reaches'
complete -c snap-mask -n __snap_mask_at_rule -l sort -d 'Put the list that a selector reaches in order'
complete -c snap-mask -n __snap_mask_at_first -l help -d 'Say which words snap-mask takes'
complete -c snap-mask -n __snap_mask_at_first -l version -d 'Say its version'
