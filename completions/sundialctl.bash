# Completion of sundialctl(1) for bash: the command first, then the files that it reads.

_sundialctl() {
    local current=${COMP_WORDS[COMP_CWORD]} most=0
    COMPREPLY=()
    if [ "$COMP_CWORD" -eq 1 ]; then
        mapfile -t COMPREPLY < <(compgen -W "search renew why bounds resume record merge version" -- "$current")
        return
    fi
    # how many files the command reads: numbers follow
    case ${COMP_WORDS[1]} in
        search | why) most=1 ;;
        bounds) most=2 ;;
        renew) most=3 ;;
        # all of its words are files, but for the slash
        resume | record) most=$COMP_CWORD ;;
    esac
    # the number of logs comes before the feed
    if [ "${COMP_WORDS[1]}" = merge ]; then
        if [ "$COMP_CWORD" -eq 3 ]; then
            compopt -o default
        fi
        return
    fi
    # names of files are left to readline, which knows of quotes and of ~
    if [ "$COMP_CWORD" -le $((most + 1)) ]; then
        compopt -o default
    fi
}

complete -F _sundialctl sundialctl
