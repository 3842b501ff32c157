# Sourced by the scripts that time the program: `program` is its path, and `folder` one for what it writes.

# Runs the program once with these words. Its time in microseconds stays in `took`, its status in `answered`, and what
# it writes in the file `answer`.
run_once() {
    local begun=${EPOCHREALTIME//[!0-9]/}
    answered=0
    "$program" "$@" >"$folder/answer" || answered=$?
    took=$((${EPOCHREALTIME//[!0-9]/} - begun))
}

# Runs the program three times with the words behind the first three, and prints its least time; that stays in
# microseconds in `least`. An answer that has not the status, or does not begin as is wanted, ends the script.
measure() {
    local name=$1 status=$2 wanted=$3 took answered first
    shift 3
    least=
    for _ in 1 2 3; do
        run_once "$@"
        if [ -z "$least" ] || [ "$took" -lt "$least" ]; then least=$took; fi
    done
    first=$(head -n 1 "$folder/answer")
    printf '%-8s %4d.%03d s  status %d  %.80s\n' "$name" $((least / 1000000)) $((least / 1000 % 1000)) "$answered" "$first"
    if [ "$answered" -ne "$status" ] || [ "${first:0:${#wanted}}" != "$wanted" ]; then
        echo "wanted: status $status  $wanted"
        exit 1
    fi
}
