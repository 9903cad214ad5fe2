# Completion of snap-front's words for fish.

# Whether it is the first word.
function __snap_front_at_first
    test (count (commandline -opc)) -eq 1
end

complete -c snap-front -f
complete -c snap-front -n __snap_front_at_first -a get -d 'Write the value at a path of the header'
complete -c snap-front -n __snap_front_at_first -a set -d 'Write the page with a value at a path'
complete -c snap-front -n __snap_front_at_first -a remove -d 'Write the page without what stands at a path'
complete -c snap-front -n __snap_front_at_first -a format -d 'Write the page with its header printed anew'
complete -c snap-front -n __snap_front_at_first -l help -d 'Say which words snap-front takes'
complete -c snap-front -n __snap_front_at_first -l version -d 'Say its version'
