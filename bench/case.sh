#!/usr/bin/env bash
# Times the large generated case beside the check of a plan on the same network, and how a case grows with leaves.
# usage: bench/case.sh PROGRAM [NUMBER LEAVES SPINES]
# PROGRAM is the proved program, as `rt run` in crates/sundial leaves it below crates/sundial/out/. The case is
# `case 1 256 32` where no words are given: 288 devices, 8192 links and 256 listed domains, and some 90,000 events.
#
# Runs of two kinds tell reading and replaying apart:
#   check    the plan of the same network is accepted
#   case     the network is made and planned twice, and replayed through its schedule; with half the leaves, and a
#            quarter of them, too
# Then both run in turn. The aim: at most twice what the check takes. The line of the large case is compared.
set -eu
program=$(realpath "$1")
number=${2:-1}
leaves=${3:-256}
spines=${4:-32}
here=$(realpath "$(dirname "$0")")
folder=$(mktemp -d)
trap 'rm -rf "$folder"' EXIT
. "$here/measure.sh"

python3 "$here/schedule.py" --network "$leaves" "$spines" >"$folder/topology"
"$program" plan "$folder/topology" >"$folder/plan"
measure check 0 "accepted" check "$folder/topology" "$folder/plan"
wanted="case "
if [ "$number $leaves $spines" = "1 256 32" ]; then wanted="case 89688 306 3203155 0 0"; fi
for fewer in 4 2 1; do
    if [ "$fewer" -gt 1 ]; then expected="case "; else expected=$wanted; fi
    measure case 0 "$expected" case "$number" $((leaves / fewer)) "$spines"
    events=$(cut -d ' ' -f 2 "$folder/answer")
    awk -v least="$least" -v events="$events" -v leaves=$((leaves / fewer)) \
        'BEGIN { printf "%d leaves, %d events, %.0f ns for each\n", leaves, events, least * 1000 / events }'
done
cp "$folder/answer" "$folder/case"
# In turn, since the speed of a machine may change from one minute to the next.
for _ in {1..21}; do
    run_once check "$folder/topology" "$folder/plan"
    [ "$answered" -eq 0 ]
    checking=$took
    run_once case "$number" "$leaves" "$spines"
    [ "$answered" -eq 0 ]
    cmp "$folder/case" "$folder/answer" >&2
    echo "$took $checking"
done >"$folder/pairs"
awk '{ print $1 / $2 }' "$folder/pairs" | sort -n >"$folder/ratios"
awk -v middle="$(sed -n 11p "$folder/ratios")" '
    NR == 1 || $1 < case_ { case_ = $1 } NR == 1 || $2 < check { check = $2 }
    END { printf "in turn: %.1f ms, and %.1f for the check; ratio %.2f, in the middle of 21 pairs %.2f\n", case_ / 1000, check / 1000, case_ / check, middle }' "$folder/pairs"
