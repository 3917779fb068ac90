# Completion of wqjudge for bash: its options, their values, and files.
_wqjudge() {
    local word=${COMP_WORDS[COMP_CWORD]} before=${COMP_WORDS[COMP_CWORD - 1]} values=''
    case $before in
        --kernel) values='6.1 6.12' ;;
        --kind) values='per-cpu unbound mixed' ;;
        --cpus) values='1 2' ;;
        --weather) values='short free plenty' ;;
        --kinds | --orders | --seed) return ;;
        *)
            case $word in
                -*) values='--kernel --kind --kinds --cpus --weather --orders --seed --write-c --keep-log --help' ;;
            esac
            ;;
    esac
    if [ -n "$values" ]; then
        mapfile -t COMPREPLY < <(compgen -W "$values" -- "$word")
    else
        compopt -o default 2>/dev/null
    fi
}
complete -F _wqjudge wqjudge
