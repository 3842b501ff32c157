#!/usr/bin/env bash
# Builds the example and runs it. For each seed its reports have to be those of `sundial replay` for
# the schedule that it wrote, with nothing broken and no alarm. The log that it writes of the same
# has to become the same schedule, and so have the compact logs of its devices: `sundialctl merge`
# makes one log of them, and `sundialctl record` the schedule. With a fault planted `replay` has to
# name the premise.
#
#     bindings/c/run.sh LIBRARY SUNDIAL [SEED..]
#
# LIBRARY is libsd_device_c.a, SUNDIAL the program. SUNDIALCTL may name the second program. Where it
# is not built or lacks a word, a model in Python takes its place. It needs a C compiler, `cc` or what
# CC names, and python3 for the logs.
set -u
library=$(realpath "$1") || exit 2
sundial=$(realpath "$2") || exit 2
sundialctl=$(realpath "${SUNDIALCTL:-$(dirname "$0")/../../crates/sundialctl/out/sundialctl}" 2> /dev/null)
shift 2
[ $# -gt 0 ] || set -- 1 2 3
cd "$(dirname "$0")" || exit 2
work=$(mktemp -d) || exit 2
trap 'rm -rf "$work"' EXIT

"${CC:-cc}" -std=c11 -O2 -Wall -Wextra -Werror -I ../../include -o "$work/embed" \
    embed.c recorder.c "$library" || exit 1

replay() {
    "$sundial" replay topology.toml plan-1.json plan-2.json plan-3.json "$work/schedule" \
        > "$work/replayed"
}

# What makes something else of logs, with the topology and the plans.
of_log() { # words..
    ../../tools/sundial-record topology.toml "$work/log" --plan plan-1.json --plan plan-2.json \
        --plan plan-3.json --origin 0 "$@" 2> "$work/said"
}

# The schedule that sundial-record makes of the log.
record() {
    if ! command -v python3 > /dev/null; then
        echo "embed: no python3, so the logs were not tried"
        return 0
    fi
    "$work/embed" "$1" "$work/log" log > "$work/logged" && cmp "$work/told" "$work/logged" \
        && of_log --no-losses -o "$work/recorded" && cmp "$work/schedule" "$work/recorded" \
        && record_compact "$1"
}

# The second program, where it has the word, or the model of the tools.
with_word() { # word
    if [ -x "$sundialctl" ] && "$sundialctl" | grep -q "| $1 "; then
        echo "$sundialctl"
    else
        echo ../../tools/tests/plain_sundialctl.py
    fi
}
merger=$(with_word merge)
recorder=$(with_word record)

# The compact logs of the operator and the devices, merged, and the schedule that is made of that. The
# merge is the one by `sort`, the log that sundial-record makes of the log with names, and the merge of
# the feed that it writes of the compact logs.
record_compact() {
    local log number=0 logs=()
    "$work/embed" "$1" "$work/own" compact > "$work/logged" && cmp "$work/told" "$work/logged" || return 1
    for log in "$work"/own.{operator,s0,s1,s2,l0,l1}; do
        logs+=("$log")
        number=$((number + 1))
        sed "s/^/$number /" "$log"
    done > "$work/feed"
    "$merger" merge "$number" "$work/feed" > "$work/merged" \
        && LC_ALL=C sort -m -s -n -k 2,2 "${logs[@]}" | cmp "$work/merged" \
        && of_log --compact | cmp "$work/merged" \
        && ../../tools/sundial-record topology.toml "${logs[@]}" --origin 0 --feed 2> "$work/said" \
            | "$merger" merge "$number" /dev/stdin | cmp "$work/merged" \
        && "$recorder" record topology.toml plan-1.json plan-2.json plan-3.json "$work/merged" > "$work/recorded" \
        && cmp "$work/schedule" "$work/recorded"
}

bad=0
echo "embed: compact logs are merged by ${merger##*/} and recorded by ${recorder##*/}"
for seed in "$@"; do
    if "$work/embed" "$seed" "$work/schedule" > "$work/told" && replay \
        && cmp "$work/told" "$work/replayed" && record "$seed"; then
        echo "embed $seed: $(tail -1 "$work/told"), as replayed"
    else
        echo "embed $seed: differs from the replay" >&2
        grep -m 3 -E '^(broken|alarm|input|refused)' "$work/replayed" >&2
        [ ! -s "$work/said" ] || cat "$work/said" >&2
        bad=1
    fi
done
for fault in drift tick; do
    "$work/embed" "$1" "$work/schedule" "$fault" > "$work/told"
    replay
    named=$(grep -m 1 '^broken' "$work/replayed")
    case "$named" in
        "broken "*" $fault") echo "embed $1 $fault: $named" ;;
        *) echo "embed $1 $fault: the replay names '$named'" >&2; bad=1 ;;
    esac
done
exit "$bad"
