# Completion of the tools of sundial for bash. Made by tools/manual.

_sundial_tool() {
    local current=${COMP_WORDS[COMP_CWORD]} words=
    case $1 in
        sundial-topology) words="lldp tables netbox names absent lint make --aggregations --cables --candidates --cores --delays --depth --devices --every-feed --feeds --grain --help --host-links --hosts --ignore --ignore-chassis --ignore-port --ignore-role --interfaces --leaves --links --links-each --loss --max --message-loss --min --no-feeds --no-racks --one-sided --oscillators --output --period --plan --pods --ppm --root-role --seed --side-field --spines --status --strip-domain --tick --trays --version --without-feed --without-rack" ;;
        sundial-exchanges) words="capture ptp chrony --asymmetry --device --help --hold --link --output --peer --seconds --version" ;;
        sundial-record) words="--compact --counters --feed --follow --help --horizon --no-losses --origin --output --plan --version" ;;
        sundial-cut) words="--at --certify --every --follow --help --jobs --move --output --run --version" ;;
        sundial-lines) words="--command --csv --exchanges --follow --help --lineage --output --plan --schedule --strings --topology --version" ;;
        sundial-watch) words="report --ask --bound --counters --every --fabric --follow --from --help --horizon --jump --keep --listen --once --origin --output --plan --prometheus --reports --to --version" ;;
        sundial-why) words="--absent --follow --help --lines --output --version" ;;
        sundial-duty) words="--device --first-epoch --form --help --output --version" ;;
        sundial-report) words="--base --bounds --check --domain --drill --help --hold --of --only --output --readiness --replay --text --title --version" ;;
        sundial-whatif) words="--allow --ask --base --clocks --delays --drift --fail --help --hold --late --lose --lossy --mend --no-fixes --output --over --renew --report --seed --until --version" ;;
        sundial-readiness) words="--base --help --hold --json --output --refused --search --version" ;;
        sundial-plain-replay) words="--follow --help --output --version" ;;
    esac
    COMPREPLY=()
    if [[ $current == -* ]] || { [ "$COMP_CWORD" -eq 1 ] && [[ $words != -* ]]; }; then
        mapfile -t COMPREPLY < <(compgen -W "$words" -- "$current")
    fi
    # names of files are left to readline, which knows of quotes and of ~
    [ ${#COMPREPLY[@]} -gt 0 ] || compopt -o default
}

complete -F _sundial_tool sundial-topology sundial-exchanges sundial-record sundial-cut sundial-lines sundial-watch sundial-why sundial-duty sundial-report sundial-whatif sundial-readiness sundial-plain-replay
