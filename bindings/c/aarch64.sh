#!/usr/bin/env bash
# Compares the library for 64-bit Arm, under an emulator, with the one for this machine: the example has
# to print and write the same bytes for each seed, and the fuzzer has to find no fault.
#
#     bindings/c/aarch64.sh LIBRARY_OF_ARM LIBRARY [SEED..]
#
# It needs a cross compiler, aarch64-linux-gnu-gcc or what ARM_CC names, and qemu-aarch64 or what
# QEMU names. Where one is not there it says so and passes.
set -u
for_arm=$(realpath "$1") || exit 2
library=$(realpath "$2") || exit 2
shift 2
[ $# -gt 0 ] || set -- 1 2 3
cross=${ARM_CC:-aarch64-linux-gnu-gcc}
qemu=${QEMU:-qemu-aarch64}
for program in "$cross" "$qemu"; do
    command -v "$program" > /dev/null || { echo "aarch64: no $program, so the library for Arm was not run"; exit 0; }
done
cd "$(dirname "$0")" || exit 2
work=$(mktemp -d) || exit 2
trap 'rm -rf "$work"' EXIT
flags=(-std=c11 -O2 -I ../../include)
"${CC:-cc}" "${flags[@]}" -o "$work/here" embed.c recorder.c "$library" || exit 1
"$cross" "${flags[@]}" -static -o "$work/arm" embed.c recorder.c "$for_arm" || exit 1
"$cross" "${flags[@]}" -static -o "$work/fuzz" fuzz.c "$for_arm" || exit 1
for seed in "$@"; do
    "$work/here" "$seed" "$work/schedule" > "$work/told" || exit 1
    "$qemu" "$work/arm" "$seed" "$work/schedule-arm" > "$work/told-arm" || exit 1
    cmp "$work/told" "$work/told-arm" && cmp "$work/schedule" "$work/schedule-arm" || exit 1
done
"$qemu" "$work/fuzz" 3 > "$work/told" || { cat "$work/told" >&2; exit 1; }
echo "aarch64: $# seeds as on this machine; $(tail -1 "$work/told")"
