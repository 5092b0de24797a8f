# Completions of ion 0.2.0 for bash, written by packaging/make_pages.py.
_ion() {
    local cur=${COMP_WORDS[COMP_CWORD]} prev=${COMP_WORDS[COMP_CWORD-1]}
    [[ $prev == = ]] && prev=${COMP_WORDS[COMP_CWORD-2]}
    [[ $cur == = ]] && prev=${COMP_WORDS[COMP_CWORD-1]} cur=
    COMPREPLY=()
    case $prev in
        --catalog) mapfile -t COMPREPLY < <(compgen -f -- "$cur"); return ;;
        --depth|--scalar|--symbols|--value) return ;;
        --to) COMPREPLY=($(compgen -W 'text binary' -- "$cur")); return ;;
    esac
    if ((COMP_CWORD == 1)); then
        COMPREPLY=($(compgen -W 'show check convert help -h --help -V --version' -- "$cur"))
        return
    fi
    if [[ $cur == -* ]]; then
        case ${COMP_WORDS[1]} in
            show) COMPREPLY=($(compgen -W '--pretty --floats --catalog --lines --depth --scalar --symbols -h --help' -- "$cur")) ;;
            check) COMPREPLY=($(compgen -W '--floats --catalog --lines --depth --scalar --symbols -h --help' -- "$cur")) ;;
            convert) COMPREPLY=($(compgen -W '--to --pretty --rewrite --floats --catalog --lines --depth --scalar --symbols --value -h --help' -- "$cur")) ;;
        esac
        return
    fi
    [[ ${COMP_WORDS[1]} == help ]] && COMPREPLY=($(compgen -W 'show check convert' -- "$cur")) && return
    mapfile -t COMPREPLY < <(compgen -f -- "$cur")
}
complete -o filenames -F _ion ion
