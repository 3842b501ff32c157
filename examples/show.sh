# Read by the scripts `run` of the examples. `show COMMAND` prints the command as it is typed, and
# then what it prints. A status other than 0 follows on a line of its own, as [status 7].
program=${1:-sundial}
case $program in
    */*) program=$(cd "$(dirname "$program")" && pwd)/$(basename "$program") ;;
esac
cd "$(dirname "$0")" || exit 1

sundial() {
    command "$program" "$@"
}

show() {
    printf '$ %s\n' "$1"
    eval "$1" 2>&1
    status=$?
    [ "$status" -eq 0 ] || printf '[status %s]\n' "$status"
}
