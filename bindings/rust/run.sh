#!/usr/bin/env bash
# Tests the bindings for Rust over the library, and beside the example in C: the same schedule has
# to give the same reports. Warnings are faults, in the crate and in its pages.
#
#     bindings/rust/run.sh LIBRARY [SEED]
#
# The store of examples/kv.rs has to keep the law of commit wait, and to break it where it does not wait.
#
# LIBRARY is libsd_device_c.a. It needs cargo, a C compiler (`cc` or what CC names) and no network.
set -u
library=$(realpath "$1") || exit 2
seed=${2:-1}
cd "$(dirname "$0")" || exit 2
work=$(mktemp -d) || exit 2
trap 'rm -rf "$work"' EXIT

cp -r Cargo.toml build.rs examples src tests "$work" || exit 1
"${CC:-cc}" -std=c11 -O2 -I ../../include -o "$work/embed" ../c/embed.c ../c/recorder.c "$library" \
    || exit 1
"$work/embed" "$seed" "$work/schedule" > "$work/told" || exit 1
if command -v python3 > /dev/null; then
    {
        ../../tools/sundial-duty ../c/topology.toml ../c/plan-1.json ../c/plan-2.json ../c/plan-3.json --form rust
        cat duties.rs
    } > "$work/tests/duties.rs" || exit 1
    {
        ../blocks ../../docs/LIFE-OF-A-DEVICE.md rust life
        cat life.rs
    } > "$work/tests/life.rs" || exit 1
fi
export RUSTFLAGS='-D warnings' RUSTDOCFLAGS='-D warnings'
export SUNDIAL_DEVICE_LIB=${library%/*} SUNDIAL_EXAMPLE=$work
where=(--offline --all-features --manifest-path "$work/Cargo.toml" --target-dir "$work/target")
# A writer in C, whose clock the tests read, where sundial_clock.h can be.
if [ "$(uname -s)" = Linux ]; then
    "${CC:-cc}" -std=c11 -O2 -pthread -I ../../include -I ../c -o "$work/clock" ../c/clock_run.c "$library" || exit 1
    "$work/clock" write "$work/page" 600 &
    writer=$!
    trap 'kill "$writer"; rm -rf "$work"' EXIT
    while [ ! -s "$work/page" ]; do sleep 0.01; done
    export SUNDIAL_CLOCK=$work/page
fi
if cargo test "${where[@]}" > "$work/tested" 2>&1 && cargo doc "${where[@]}" >> "$work/tested" 2>&1; then
    echo "rust: $(grep -c '^test .* ok$' "$work/tested") tests passed, and docs on all"
else
    cat "$work/tested" >&2
    exit 1
fi
# (tests build the examples too)
law() { timeout 60 "$work/target/debug/examples/kv" "$@" > "$work/history" && ../../integrations/postgres/trial/checker.py "$work/history"; }
if [ "$(uname -s)" = Linux ] && command -v python3 > /dev/null; then
    law || exit 1
    for _ in 1 2 3 4 5; do
        law unwaited
        [ $? -eq 1 ] || { echo "rust: the checker did not find that kv did not wait" >&2; exit 1; }
    done
fi
exit 0
