#!/usr/bin/env bash
# Times each call of the library, counts its instructions and its stack, and shows how large the library is and what it
# needs from outside: bench/embed/run.sh LIBRARY [CALLS], where LIBRARY is libsd_device_c.a. The counts are of CALLS
# (20000) random calls, on Linux on x86-64 alone.
library=$(realpath "$1") || exit 2
calls=${2:-20000}
cd "$(dirname "$0")" || exit 2
work=$(mktemp -d) || exit 2
trap 'rm -rf "$work"' EXIT
"${CC:-cc}" -std=c11 -O2 -Wall -Wextra -Werror -o "$work/time" time.c "$library" || exit 1
"$work/time" || exit 1
if [ "$(uname -s) $(uname -m)" = "Linux x86_64" ]; then
    "${CC:-cc}" -std=c11 -O2 -Wall -Wextra -Werror -I ../../include -o "$work/cost" cost.c "$library" || exit 1
    "$work/cost" "$calls" || exit 1
fi
echo "code and constants, bytes: $("${SIZE:-size}" -t "$library" | awk '{last = $1} END {print last}')"
echo "undefined symbols: $("${NM:-nm}" -u "$library" | awk 'NF == 2 {print $2}' | sort -u | paste -sd ' ')"
