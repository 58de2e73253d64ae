# Completion of words for bash, made by tools/manual from what `futurebus help` prints: source it.

_futurebus() {
    local word=${COMP_WORDS[COMP_CWORD]} first=1
    [ "${COMP_WORDS[1]}" = explain ] && first=2
    if [ "$COMP_CWORD" -eq "$first" ]; then
        COMPREPLY=($(compgen -W "check show run replay race narrow traffic audit make tally library exhibit explain help version" -- "$word"))
        return
    fi
    case ${COMP_WORDS[first]}:$((COMP_CWORD - first)) in
        audit:1) COMPREPLY=($(compgen -f -- "$word")) ;;
        audit:2) COMPREPLY=($(compgen -f -W "seed" -- "$word")) ;;
        check:1) COMPREPLY=($(compgen -f -- "$word")) ;;
        help:1) COMPREPLY=($(compgen -W "check show run replay race narrow traffic audit make tally library exhibit explain help version" -- "$word")) ;;
        library:1) COMPREPLY=($(compgen -W "cb up wt wb ex un" -- "$word")) ;;
        narrow:1) COMPREPLY=($(compgen -f -- "$word")) ;;
        race:1) COMPREPLY=($(compgen -f -- "$word")) ;;
        replay:1) COMPREPLY=($(compgen -f -- "$word")) ;;
        replay:2) COMPREPLY=($(compgen -f -- "$word")) ;;
        run:1) COMPREPLY=($(compgen -f -- "$word")) ;;
        run:2) COMPREPLY=($(compgen -f -W "seed" -- "$word")) ;;
        show:1) COMPREPLY=($(compgen -f -- "$word")) ;;
        traffic:1) COMPREPLY=($(compgen -f -- "$word")) ;;
        traffic:2) COMPREPLY=($(compgen -f -W "seed" -- "$word")) ;;
        *) COMPREPLY=() ;;
    esac
}

complete -o filenames -F _futurebus futurebus ./futurebus
