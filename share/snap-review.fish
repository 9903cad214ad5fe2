# Completion of snap-review's words for fish.

# Whether it is the first word.
function __snap_review_at_first
    test (count (commandline -opc)) -eq 1
end

complete -c snap-review -n __snap_review_at_first -f
complete -c snap-review -n __snap_review_at_first -a accept -d 'Put the new texts of a source file in place'
complete -c snap-review -n __snap_review_at_first -a reject -d 'Drop the new texts of a source file'
complete -c snap-review -n __snap_review_at_first -a accept-file -d 'Put a snapshot that waits in its place'
complete -c snap-review -n __snap_review_at_first -a reject-file -d 'Drop a snapshot that waits'
complete -c snap-review -n __snap_review_at_first -a list -d 'List what waits below a folder'
complete -c snap-review -n __snap_review_at_first -a accept-all -d 'Accept all that waits below a folder'
complete -c snap-review -n __snap_review_at_first -a reject-all -d 'Reject all that waits below a folder'
complete -c snap-review -n __snap_review_at_first -a walk -d 'Show what waits, and ask of each what to do'
complete -c snap-review -n __snap_review_at_first -l help -d 'Say which words snap-review takes'
complete -c snap-review -n __snap_review_at_first -l version -d 'Say its version'
