# Completion of popsample's commands and options for bash. Copy this file to
# ~/.local/share/bash-completion/completions/popsample, or source it.

# The options of a command.
_popsample_options() {
    local run="--stacks --key --height --grow --workers --board" told="--witness --report"
    case $1 in
        formula | orient) echo "$run --log $told --count --pops" ;;
        tree) echo "$run --root --log $told --count --pops" ;;
        resample) echo "$run $told --pops" ;;
        make) echo "$run grid --log $told" ;;
        rounds) echo --stacks --key --height ;;
        resume) echo --workers --board ;;
    esac
}

# The options that an option cannot be combined with: itself, and what it excludes.
_popsample_apart() {
    case $1 in
        --stacks) echo --stacks --key --height --grow --count ;;
        --key | --height) echo "$1" --stacks ;;
        --grow) echo --grow --stacks --count --pops ;;
        --count) echo --count --stacks --grow --workers --board --log --witness --report --pops ;;
        --pops) echo --pops --grow --workers --board --log --witness --report --count ;;
        --workers | --board | --log | --witness | --report) echo "$1" --count --pops ;;
        *) echo "$1" ;;
    esac
}

# The arguments that may follow an argument: the commands, the options that aren't given yet and aren't excluded, or the
# values of one. File names are offered only after a redirection, since the program takes none.
_popsample() {
    local word=${COMP_WORDS[COMP_CWORD]} at standing option other choices="" words=()
    for ((at = 1; at < COMP_CWORD; at++)); do
        if [[ ${COMP_WORDS[at]} == *[\<\>]* ]]; then
            # In the place of an option, a digit is the file descriptor that is redirected.
            ((${#words[@]} > 0 && ${#words[@]} % 2 == 0)) && [[ ${words[-1]} == [0-9] ]] && unset "words[-1]"
            ((at += 1))
        else
            words+=("${COMP_WORDS[at]}")
        fi
    done
    if ((at > COMP_CWORD)); then
        compopt -o filenames 2> /dev/null
        mapfile -t COMPREPLY < <(compgen -f -- "$word")
        return
    fi
    standing=" ${words[*]:1} "
    if ((${#words[@]} == 0)); then
        choices="formula orient tree resample check make rounds replay resume"
    elif [[ ${words[-1]} == --report ]]; then
        choices="totals heights layers totals,heights,layers"
    elif [[ ${words[-1]} == --board ]]; then
        choices="words lock"
    elif [[ ${words[-1]} == --log ]]; then
        choices="on off"
    elif ((${#words[@]} % 2 == 1)); then
        for option in $(_popsample_options "${words[0]}"); do
            for other in $(_popsample_apart "$option"); do
                [[ $standing == *" $other "* ]] && continue 2
            done
            choices+=" $option"
        done
    fi
    mapfile -t COMPREPLY < <(compgen -W "$choices" -- "$word")
}

complete -F _popsample popsample
