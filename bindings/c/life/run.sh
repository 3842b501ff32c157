#!/usr/bin/env bash
# Runs the procedures of docs/LIFE-OF-A-DEVICE.md, with the code of that page, in a fabric of five devices. A replay of
# each schedule has to print the reports of the devices and break nothing, or has to name the premise that the page names.
#
#     bindings/c/life/run.sh LIBRARY SUNDIAL [SEED..]
#
# LIBRARY is libsd_device_c.a, SUNDIAL the program. It needs a C compiler, `cc` or what CC names, and python3: without
# that it says so and passes.
set -u
library=$(realpath "$1") || exit 2
sundial=$(realpath "$2") || exit 2
shift 2
[ $# -gt 0 ] || set -- 1 2 3
cd "$(dirname "$0")" || exit 2
if ! command -v python3 > /dev/null; then
    echo "life: left out, as there is no python3: the procedures of LIFE-OF-A-DEVICE"
    exit 0
fi
work=$(mktemp -d) || exit 2
trap 'rm -rf "$work"' EXIT

"$sundial" plan topology.toml > "$work/plan-1.json" || { cat "$work/plan-1.json" >&2; exit 1; }
echo '{"absent_devices": ["s0"], "absent_links": []}' > "$work/without"
echo '{"absent_devices": [], "absent_links": []}' > "$work/whole"
"$sundial" renew topology.toml "$work/plan-1.json" "$work/without" > "$work/plan-2.json" || { cat "$work/plan-2.json" >&2; exit 1; }
"$sundial" renew topology.toml "$work/plan-2.json" "$work/whole" > "$work/plan-3.json" || { cat "$work/plan-3.json" >&2; exit 1; }
../../../tools/sundial-duty topology.toml "$work"/plan-{1,2,3}.json -o "$work/duties.h" \
    && ../../blocks ../../../docs/LIFE-OF-A-DEVICE.md c life > "$work/life_page.h" || exit 1
"${CC:-cc}" -std=c11 -O2 -Wall -Wextra -Wpedantic -Wconversion -Wshadow -Werror -I ../../../include -I .. -I "$work" \
    -o "$work/life" life.c ../recorder.c "$library" || exit 1

# One life of the fabric: the first premise that breaks is this one, or none does and the reports are those of the devices.
judge() { # number premise plan..
    local number=$1 premise=$2 named
    shift 2
    "$sundial" replay topology.toml "${@/#/$work/}" "$work/schedule-$number" > "$work/replayed"
    named=$(grep -m 1 -E '^(broken|alarm|input|refused)' "$work/replayed")
    if [ "$premise" = none ]; then
        cmp "$work/told-$number" "$work/replayed" && return 0
    elif [[ $named == "broken "*" $premise" ]] && ! grep -q '^alarm [0-9]* interval' "$work/replayed"; then
        return 0
    fi
    echo "life: the replay names '$named', and it should name $premise" >&2
    return 1
}

bad=0
for procedure in $("$work/life" 2> "$work/usage"); do
    lives=0
    for seed in "$@"; do
        "$work/life" "$procedure" "$seed" "$work" > "$work/said" || { bad=1; echo "life: $procedure, seed $seed" >&2; continue; }
        while read -ra words; do
            judge "${words[@]:1}" || { bad=1; echo "life: $procedure, seed $seed, life ${words[1]}" >&2; }
            lives=$((lives + 1))
        done < "$work/said"
    done
    echo "life: $procedure: $lives schedules as the page says"
done
exit "$bad"
