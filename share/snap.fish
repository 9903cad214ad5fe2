# Completion of snap's words for fish.

# Whether as many words stand before the one that is being written, `snap` among them; from the third on they are a run's.
function __snap_at
    set -l words (commandline -opc)
    test (count $words) -eq $argv[1]; or return 1
    test $argv[1] -eq 1; or test "$words[2]" = run
end

# Whether this flag may come next: each is given once, after the workspace.
function __snap_takes
    set -l words (commandline -opc)
    test (count $words) -ge 4; and test "$words[2]" = run; and not contains -- $argv[1] $words[5..-1]
end

complete -c snap -f
complete -c snap -n '__snap_at 1' -a run -d 'Compare the values on standard input'
complete -c snap -n '__snap_at 1' -a demo -d 'Run requests of its own twice'
complete -c snap -n '__snap_at 1' -a explain -d 'Say why input is refused'
complete -c snap -n '__snap_at 1' -a front -d 'Read or change the header of a page'
complete -c snap -n '__snap_at 1' -a mask -d 'Mask places in JSON lines'
complete -c snap -n '__snap_at 1' -a review -d 'Accept or reject what waits'
complete -c snap -n '__snap_at 1' -l help -d 'Say which words snap takes'
complete -c snap -n '__snap_at 1' -l version -d 'Say its version'
complete -c snap -n '__snap_at 2' -a inplace -d 'Write what does not pass as approved'
complete -c snap -n '__snap_at 2' -a new -d 'Write it beside, for a review'
complete -c snap -n '__snap_at 2' -a no -d 'Write nothing'
complete -c snap -n '__snap_at 3' -a '(__fish_complete_directories (commandline -ct))'
complete -c snap -n '__snap_takes --force' -l force -d 'Write what passes, too'
complete -c snap -n '__snap_takes --force-pass' -l force-pass -d 'No verdict fails the run'
complete -c snap -n '__snap_takes --full' -l full -d 'Compare the headers, too'
complete -c snap -n '__snap_takes --literal' -l literal -d 'Texts of several lines as literal blocks'
