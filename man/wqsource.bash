# Completion of wqsource for bash: its commands, and the options of each, as its help says them; and files.
_wqsource() {
    local word=${COMP_WORDS[COMP_CWORD]} command=''
    [ "$COMP_CWORD" -eq 1 ] || command=${COMP_WORDS[1]}
    COMPREPLY=()
    if [ -z "$command" ] && [ "${word#-}" = "$word" ]; then
        mapfile -t COMPREPLY < <(compgen -W "$(_wqsource_commands "$1")" -- "$word")
    elif [ "${word#-}" != "$word" ]; then
        mapfile -t COMPREPLY < <(compgen -W "$(_wqsource_options "$1" $command)" -- "$word")
    else
        compopt -o default 2>/dev/null
    fi
}

# _wqsource_commands PROGRAM: `audit|drift|draft|ask|scan`, as the first line of its help has it.
_wqsource_commands() {
    "$1" --help 2>/dev/null | sed -nE 's/^usage: wqsource .*[] ]([a-z]+(\|[a-z]+)+) .*/\1/p' | tr '|' '\n'
}

# _wqsource_options PROGRAM [COMMAND]: all words of its help that begin with two dashes.
_wqsource_options() {
    "$@" --help 2>/dev/null | grep -oE -- '--[a-z][a-z-]*' | sort -u
}
complete -F _wqsource wqsource
