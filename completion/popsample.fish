# Completion of popsample's commands and options for fish. Copy this file to ~/.config/fish/completions.

# The options of a command.
function __popsample_options
    set -l run --stacks --key --height --grow --workers --board
    set -l told --witness --report
    switch $argv[1]
        case formula orient
            string join \n -- $run --log $told --count --pops
        case tree
            string join \n -- $run --root --log $told --count --pops
        case resample
            string join \n -- $run $told --pops
        case make
            string join \n -- $run grid --log $told
        case rounds
            string join \n -- --stacks --key --height
        case resume
            string join \n -- --workers --board
    end
end

# The options that an option cannot be combined with: itself, and what it excludes.
function __popsample_apart
    switch $argv[1]
        case --stacks
            string join \n -- --stacks --key --height --grow --count
        case --key --height
            string join \n -- $argv[1] --stacks
        case --grow
            string join \n -- --grow --stacks --count --pops
        case --count
            string join \n -- --count --stacks --grow --workers --board --log --witness --report --pops
        case --pops
            string join \n -- --pops --grow --workers --board --log --witness --report --count
        case --workers --board --log --witness --report
            string join \n -- $argv[1] --count --pops
        case '*'
            string join \n -- $argv[1]
    end
end

# The commands, with what they do.
function __popsample_commands
    printf '%s\t%s\n' \
        formula 'sample a satisfying assignment of an extremal formula' \
        orient 'sample a sink-free orientation' \
        tree 'sample a spanning tree, with arrows to its root' \
        resample 'find a satisfying assignment of any formula, and print the log' \
        check 'check whether a formula is extremal' \
        make 'sample a spanning tree of a square grid, and print a summary' \
        rounds 'sample a satisfying assignment of any formula, in synchronous rounds' \
        replay 'verify the log of a certificate, and print the state that it reaches' \
        resume 'continue the run of a certificate to its end'
end

# What an option means.
function __popsample_meaning
    switch $argv[1]
        case --stacks
            echo "stack entries of each variable: rows joined by ';', their numbers by ','"
        case --key
            echo 'random key, 64 hexadecimal digits (default: 64 zeros)'
        case --height
            echo 'stack length, from 1 to 2147483647 (default: 1048576)'
        case --grow
            echo 'increase the stack length in stages, up to N'
        case --workers
            echo 'threads for one run, from 1 to 64 (default: 1)'
        case --board
            echo 'synchronisation between workers: words (lock-free, default) or lock'
        case --root
            echo 'root of the tree, from 1 (default: 1)'
        case --log
            echo 'print the log of the pops (default: off)'
        case --witness
            echo 'print the witness tree of the pop that used entry K, from 0, of variable V'
        case --report
            echo "print statistics of the log: some of totals, heights, layers, joined by ','"
        case --count
            echo 'draw N samples on all processors, from 1 to 65536'
        case --pops
            echo 'stop the run after N pops, and print its certificate'
        case grid
            echo 'number of rows and of columns, from 1 to 2048'
    end
end

# The values of an option.
function __popsample_values
    switch $argv[1]
        case --report
            string join \n totals heights layers totals,heights,layers
        case --board
            string join \n words lock
        case --log
            string join \n on off
    end
end

# The options that aren't given yet and aren't excluded, after the arguments of the command line.
function __popsample_left
    for option in (__popsample_options $argv[1])
        set -l free yes
        for other in (__popsample_apart $option)
            contains -- $other $argv[2..]; and set free no
        end
        test $free = yes; and printf '%s\t%s\n' $option (__popsample_meaning $option)
    end
end

# The arguments after the program's name and before the one at the cursor, without redirections.
function __popsample_before
    set -l line (string replace --all --regex '&?\d?[<>]+[&|?]?\s*\S*' '' -- (commandline -pc))
    set -l words (string split --no-empty ' ' -- $line)
    set -l word (commandline -ct)
    test -n "$word"; and set --erase words[-1]
    string join \n -- $words[2..]
end

# The arguments that may follow the arguments before the cursor.
function __popsample_choices
    set -l words (__popsample_before)
    if test (count $words) -eq 0
        __popsample_commands
    else if test (math (count $words) % 2) -eq 1
        __popsample_left $words
    else
        __popsample_values $words[-1]
    end
end

# The program takes no file names, so none is offered.
complete --command popsample --no-files --arguments '(__popsample_choices)'
