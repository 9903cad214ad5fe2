# Completion of snap-explain's words for fish.

# Whether a rule may begin here, after the word mask: --put takes two words, --sort one.
function __snap_explain_at_rule
    set -l words (commandline -opc)
    test (count $words) -ge 2; and test "$words[2]" = mask; or return 1
    set -l at 3
    while test $at -le (count $words)
        switch $words[$at]
            case --put
                set at (math $at + 3)
            case --sort
                set at (math $at + 2)
            case '*'
                return 1
        end
    end
    test $at -eq (math (count $words) + 1)
end

# Whether it is the workspace.
function __snap_explain_at_workspace
    set -l words (commandline -opc)
    test (count $words) -eq 2; and contains -- "$words[2]" stream unused
end

# Whether it is a flag after the workspace.
function __snap_explain_at_flag
    set -l words (commandline -opc)
    test (count $words) -ge 3; and test (count $words) -le 4; and test "$words[2]" = stream
end

# Whether it is the command of snap-front.
function __snap_explain_at_command
    set -l words (commandline -opc)
    test (count $words) -eq 2; and test "$words[2]" = front
end

# Whether it is the word of a review.
function __snap_explain_at_review
    set -l words (commandline -opc)
    test (count $words) -eq 2; and test "$words[2]" = review
end

# Whether it is the path of a review.
function __snap_explain_at_path
    set -l words (commandline -opc)
    test (count $words) -eq 3; and test "$words[2]" = review
end

# Whether it is the first word.
function __snap_explain_at_first
    test (count (commandline -opc)) -eq 1
end

complete -c snap-explain -f
complete -c snap-explain -n __snap_explain_at_first -a stream -d 'Say which requests are none or would not pass, and why'
complete -c snap-explain -n __snap_explain_at_first -a unused -d 'Name the snapshots that no request asks for'
complete -c snap-explain -n __snap_explain_at_workspace -a '(__fish_complete_directories)'
complete -c snap-explain -n __snap_explain_at_first -a review -d 'Say why a review would be refused'
complete -c snap-explain -n __snap_explain_at_review -a 'accept reject accept-file reject-file'
complete -c snap-explain -n __snap_explain_at_path -F
complete -c snap-explain -n __snap_explain_at_flag -l json -d 'Write each finding as a JSON object'
complete -c snap-explain -n __snap_explain_at_flag -l literal -d 'Print texts of several lines as literal blocks'
complete -c snap-explain -n __snap_explain_at_first -a mask -d 'Say which lines snap-mask refuses, and why'
complete -c snap-explain -n __snap_explain_at_first -a front -d 'Say why snap-front has no answer of a page'
complete -c snap-explain -n __snap_explain_at_command -a 'get set remove format'
complete -c snap-explain -n __snap_explain_at_first -l help -d 'Say which words snap-explain takes'
complete -c snap-explain -n __snap_explain_at_first -l version -d 'Say its version'
complete -c snap-explain -n __snap_explain_at_rule -l put -d 'A rule of snap-mask: a text in place of what a selector reaches'
complete -c snap-explain -n __snap_explain_at_rule -l sort -d 'A rule of snap-mask: the list that a selector reaches in order'
