# Completion of sundial(1) for bash: the command first, then the files that it reads.

_sundial() {
    local current=${COMP_WORDS[COMP_CWORD]} most=0
    COMPREPLY=()
    if [ "$COMP_CWORD" -eq 1 ]; then
        mapfile -t COMPREPLY < <(compgen -W "plan check renew migrate replay order drill twoway solo case" -- "$current")
        return
    fi
    # how many files the command reads at most
    case ${COMP_WORDS[1]} in
        plan | migrate | solo) most=1 ;;
        check | drill | twoway) most=2 ;;
        renew) most=3 ;;
        replay | order) most=66 ;; # a topology, 1 to 64 plans and a schedule
    esac
    # names of files are left to readline, which knows of quotes and of ~
    if [ "$COMP_CWORD" -le $((most + 1)) ]; then
        compopt -o default
    fi
}

complete -F _sundial sundial
