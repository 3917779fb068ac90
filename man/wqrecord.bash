# Completion of wqrecord for bash: its commands, and the options of each, as its help says them; and files. Behind `--`
# of `run` stands another command, with its own completion where bash-completion has one.
_wqrecord() {
    local word=${COMP_WORDS[COMP_CWORD]} command='' at
    [ "$COMP_CWORD" -eq 1 ] || command=${COMP_WORDS[1]}
    COMPREPLY=()
    for ((at = 2; at < COMP_CWORD; at++)); do
        [ "${COMP_WORDS[at]}" = -- ] || continue
        _wqrecord_other $((at + 1))
        return
    done
    if [ -z "$command" ] && [ "${word#-}" = "$word" ]; then
        mapfile -t COMPREPLY < <(compgen -W "$(_wqrecord_commands "$1")" -- "$word")
    elif [ "${word#-}" != "$word" ]; then
        mapfile -t COMPREPLY < <(compgen -W "$(_wqrecord_options "$1" "$command")" -- "$word")
    else
        compopt -o default 2>/dev/null
    fi
}

# _wqrecord_commands PROGRAM: the first word behind its name, in each such line of its help.
_wqrecord_commands() {
    "$1" --help 2>/dev/null | sed -nE 's/^  wqrecord ([a-z]+) .*/\1/p'
}

# _wqrecord_options PROGRAM COMMAND: all words of its help that begin with two dashes, and -o.
_wqrecord_options() {
    case $2 in
        run | stop) echo -o ;;
    esac
    case $2 in
        '' | stop | drop | status) echo --help ;;
        *) "$1" "$2" --help 2>/dev/null | grep -oE -- '--[a-z][a-z-]*' | sort -u ;;
    esac
}

# _wqrecord_other N: the word is one of the command that begins at word N.
_wqrecord_other() {
    if declare -F _command_offset >/dev/null; then
        _command_offset "$1"
    elif [ "$COMP_CWORD" -eq "$1" ]; then
        mapfile -t COMPREPLY < <(compgen -c -- "${COMP_WORDS[COMP_CWORD]}")
    else
        compopt -o default 2>/dev/null
    fi
}
complete -F _wqrecord wqrecord
