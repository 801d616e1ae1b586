# Completion of fst for fish.
function __fst_row --argument-names name says
    complete -c fst -n __fish_use_subcommand -f -a $name -d $says
    for option in $argv[3..]
        set -l parts (string split = -- $option)
        set -l values (string split -n , -- $parts[2])
        set -l rest
        if string match -q '*=*' -- $option
            set rest -r
            # With values there are no files.
            test -n "$values"; and set rest -x -a "$values"
        end
        complete -c fst -n "__fish_seen_subcommand_from $name fst$name" -l (string replace -r '^--' '' -- $parts[1]) $rest
    end
end

set -l types --arc_type=boolean,tropical,minmax,lexicographic
set -l tables --isymbols= --osymbols=
set -l connect --connect=true,false
set -l queue --queue_type=auto,fifo,lifo,shortest
__fst_row arcsort 'sorts the arcs of each state' --sort_type=ilabel,olabel
__fst_row batch 'the best answers of a cascade to each line of a file' --nshortest= --workers= --max_states= --summary
__fst_row closure 'any number of paths, one after the other' --closure_plus
__fst_row compile 'a text to a binary file' $types $tables --acceptor --keep_state_numbering --keep_isymbols --keep_osymbols
__fst_row compose 'what the first writes is read by the second' $connect --max_states=
__fst_row concat 'a path of the first, then one of the second'
__fst_row connect 'keeps the states on successful paths'
__fst_row determinize 'at most one arc of a state with a label' --max_states=
__fst_row difference 'the paths whose string the second does not have' $connect --max_states=
__fst_row encode 'pairs of labels as single labels, and back' --encode_labels --encode_weights --decode
__fst_row equivalent 'the same weight for each word, or a word that tells them apart' --max_states=
__fst_row info 'counts and properties'
__fst_row intersect 'the strings that both have' $connect --max_states=
__fst_row invert 'swaps input and output'
__fst_row make 'a cascade and lines by a seed, run as a batch' --seed= --lines= --nshortest= --workers= --max_states=
__fst_row minimize 'the fewest states' $queue
__fst_row print 'a binary file to a text' $tables --acceptor --show_weight_one --numeric
__fst_row project 'one side on both' --project_output
__fst_row prune 'the paths within a threshold of the best' --weight= $queue
__fst_row push 'weights toward the start' --push_weights --remove_total_weight $queue
__fst_row relabel 'changes labels by pairs' --relabel_ipairs= --relabel_opairs=
__fst_row replace 'puts rules in place of their calls'
__fst_row reverse 'turns every path round'
__fst_row rmepsilon 'removes epsilon arcs' $connect $queue
__fst_row shortestdistance 'the distance of each state' --reverse $queue
__fst_row shortestpath 'the best paths' --nshortest= --unique
__fst_row union 'the paths of both'
functions -e __fst_row
