# Completion of the words of `aos` for bash: source this file.
_aos() {
    local word=${COMP_WORDS[COMP_CWORD]} before=${COMP_WORDS[COMP_CWORD-1]}
    COMPREPLY=()
    if [ "$COMP_CWORD" -eq 1 ]; then
        COMPREPLY=($(compgen -W 'run replay check list gen' -- "$word"))
        return
    fi
    # bash parts --workers=4 into three words
    if [ "$word" = = ]; then
        word=
    elif [ "$before" = = ]; then
        before=${COMP_WORDS[COMP_CWORD-2]}
    fi
    case $before in
        --workers) COMPREPLY=($(compgen -W '1 2 4 8 16' -- "$word")); return ;;
        --budget) return ;;
        --script) mapfile -t COMPREPLY < <(compgen -f -- "$word"); return ;;
    esac
    # the number of pairs of a generated module is no file
    [[ ${COMP_WORDS[1]} != gen || $word = -* ]] || return
    case $word in
        -*)
            case ${COMP_WORDS[1]} in
                run) COMPREPLY=($(compgen -W '--workers --budget --log' -- "$word")) ;;
                replay) COMPREPLY=($(compgen -W '--script --watch' -- "$word")) ;;
                gen) COMPREPLY=($(compgen -W '--workers' -- "$word")) ;;
            esac
            ;;
        *) mapfile -t COMPREPLY < <(compgen -f -X '!*.Mod' -- "$word"; compgen -d -- "$word") ;;
    esac
}
complete -o filenames -F _aos aos ./aos
