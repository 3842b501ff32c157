#!/usr/bin/env bash
# Times the replay of a long schedule: a fabric of leaves and spines with asks, losses, a failure and a renewal.
# usage: bench/replay.sh PROGRAM [ROUNDS LEAVES SPINES]
# PROGRAM is the proved program, as `rt run` in crates/sundial leaves it below crates/sundial/out/. A round is 50 ms and
# some 600 events with the 256 leaves and 32 spines that are taken where no sizes are given; 17000 rounds, some ten
# million events, where no number is given. python3 makes the schedule (bench/schedule.py).
#
# Three runs tell the cost of an event and whether memory grows with the schedule:
#   check    the first plan is accepted
#   tenth    a tenth of the rounds
#   replay   all of them
# The aim: the same peak memory for the last two, and an event that costs at most five times what it costs a tuned
# program in plain Rust, which makes some sixteen million events a second: 0.31 microseconds. Such a program, without
# proofs (bench/plain), runs last where there is a rustc, in turn with the replay: it replays the same schedule and has
# to write the same bytes.
set -eu
program=$(realpath "$1")
rounds=${2:-17000}
leaves=${3:-256}
spines=${4:-32}
here=$(realpath "$(dirname "$0")")
folder=$(mktemp -d)
trap 'rm -rf "$folder"' EXIT
. "$here/measure.sh"

python3 "$here/schedule.py" --network "$leaves" "$spines" >"$folder/topology"
"$program" plan "$folder/topology" >"$folder/first"
echo '{"absent_devices":["s0"],"absent_links":[]}' >"$folder/absent"
"$program" renew "$folder/topology" "$folder/first" "$folder/absent" >"$folder/second"
for length in $((rounds / 10)) "$rounds"; do
    python3 "$here/schedule.py" "$folder/first" "$folder/second" "$length" <"$folder/topology" >"$folder/schedule$length"
done

# the peak memory of a run, in kilobytes
peak() {
    /usr/bin/time -f %M "$program" "$@" 2>&1 >"$folder/answer" | tail -n 1
}

measure check 0 "accepted" check "$folder/topology" "$folder/first"
checking=$least
for length in $((rounds / 10)) "$rounds"; do
    words=(replay "$folder/topology" "$folder/first" "$folder/second" "$folder/schedule$length")
    measure "$length" 0 "" "${words[@]}"
    tail -n 1 "$folder/answer"
    events=$(wc -l <"$folder/schedule$length")
    awk -v least="$least" -v checking="$checking" -v events="$events" -v peak="$(peak "${words[@]}")" \
        'BEGIN { printf "%d events, %.0f ns for each, %d kB at most\n", events, (least - checking) * 1000 / events, peak }'
done
if command -v rustc >/dev/null; then
    rustc -O --edition 2021 -o "$folder/plain" "$here/plain/main.rs"
    # In turn, since the speed of a machine may change from one minute to the next.
    for _ in 1 2 3 4 5 6 7; do
        run_once "${words[@]}"
        [ "$answered" -eq 0 ]
        plain=$("$folder/plain" "${words[@]:1}" 2>&1 >"$folder/copy")
        cmp "$folder/answer" "$folder/copy" >&2
        echo "$(((took - checking) * 1000)) $plain"
    done >"$folder/pairs"
    awk '{ print $1 / $2 }' "$folder/pairs" | sort -n >"$folder/ratios"
    awk -v events="$events" -v middle="$(sed -n 4p "$folder/ratios")" '
        NR == 1 || $1 < replay { replay = $1 } NR == 1 || $2 < plain { plain = $2 }
        END { printf "in turn: %.0f ns an event, and %.0f in plain Rust; ratio %.2f, in the middle of seven pairs %.2f\n", replay / events, plain / events, replay / plain, middle }' "$folder/pairs"
fi
