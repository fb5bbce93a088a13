# Completes the commands and flags of ragzomei in bash.
_ragzomei() {
    local word=${COMP_WORDS[COMP_CWORD]}
    local commands='drive generate serve compile stats zero stop dist-status warm dry --help --version'
    COMPREPLY=()
    if [ "$COMP_CWORD" -eq 1 ]; then
        mapfile -t COMPREPLY < <(compgen -W "$commands" -- "$word")
        return
    fi
    case ${COMP_WORDS[1]} in
    drive | generate | warm | dry | --help | --version) return ;;
    stats)
        if [ "$COMP_CWORD" -gt 2 ]; then
            mapfile -t COMPREPLY < <(compgen -W '--advanced --json' -- "$word")
            return
        fi
        ;;
    esac
    mapfile -t COMPREPLY < <(compgen -f -- "$word")
}
complete -o filenames -F _ragzomei ragzomei
