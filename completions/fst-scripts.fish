# Completion of the scripts beside fst for fish: the options that --help has. A file fst-NAME.fish of each script leads here.
for script in fst-edits fst-from-arpa fst-from-att fst-from-openfst fst-from-words fst-lookup fst-random fst-symbols fst-to-att fst-to-bytes fst-to-dot fst-to-openfst fst-to-strings
    complete -c $script -n 'string match -q -- "-*" (commandline -ct)' -f -a "($script --help 2> /dev/null | sed -n 's/^  \(--[a-z_]*\) [A-Z{].*/\1=/p; t; s/^  \(--[a-z_]*\).*/\1/p')"
end
