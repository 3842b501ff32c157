#!/usr/bin/env bash
# What sundial_clock.h, its examples and libsundial.so are held to, on Linux.
#
#     bindings/c/clock_checks.sh LIBRARY [quick]
#
# LIBRARY is libsd_device_c.a. Each answer and number; a writer that is stopped after each instruction of a publication;
# 8 threads, then 4 processes beside a writer; a writer that is killed 200 times under readers in two time namespaces, as
# root; the same under sanitizers; the shared library, the examples, and Python. With `quick`, which bindings/c/mutate takes,
# there are no sanitizers, and fewer runs. A line with "left out" names what is not there.
set -u
library=$(realpath "$1") || exit 2
seconds=1 times=200 optimised=-O2
[ "${2:-}" != quick ] || { seconds=0.3; times=4; optimised=-O0; }
cd "$(dirname "$0")" || exit 2
work=$(mktemp -d) || exit 2
trap 'rm -rf "$work"' EXIT
compiler=("${CC:-cc}" -std=c11 -pthread -Wall -Wextra -Wpedantic -Wconversion -Wshadow -Werror -I ../../include -I .)

# One of the two tests, compiled with these words.
build() { # test|run words..
    "${compiler[@]}" "${@:2}" -o "$work/$1" "clock_$1.c" "$library"
}

build test "$optimised" && "$work/test" page && "$work/test" step || exit 1
build run "$optimised" && "$work/run" threads "$seconds" && "$work/run" processes "$seconds" && "$work/run" kill "$times" || exit 1
for sanitizer in thread address,undefined; do
    [ "${2:-}" != quick ] || break
    # (a run of nothing tells whether this machine can run what the compiler makes)
    echo 'int main(void) { return 0; }' > "$work/nothing.c"
    if "${compiler[@]}" "-fsanitize=$sanitizer" -o "$work/nothing" "$work/nothing.c" 2> "$work/said" && "$work/nothing"; then
        for test in test run; do
            build "$test" -O1 -g "-fsanitize=$sanitizer" -fno-sanitize-recover=all || exit 1
        done
        "$work/test" page > "$work/said" && "$work/run" threads 1 > "$work/said" || exit 1
        echo "checks: $(cat "$work/said"), under the sanitizer $sanitizer"
    else
        echo "checks: left out, as ${compiler[0]} has no sanitizer $sanitizer: sundial_clock.h under it"
    fi
done

# The shared library, and the examples over it.
./shared.sh "$library" "$work/libsundial.so.1" && ln -s libsundial.so.1 "$work/libsundial.so" || exit 1
"${compiler[@]}" -O2 -o "$work/writer" clock_writer.c -L "$work" -lsundial -Wl,-rpath,"$work" || exit 1
"${compiler[@]}" -O2 -DSUNDIAL_NO_LIBRARY -o "$work/reader" clock_reader.c || exit 1
sed 's/sundial_version_1/sundial_version_0/' ../../include/sundial_device.h > "$work/sundial_device.h"
if "${compiler[0]}" -I "$work" -I . -o "$work/other" clock_reader.c -L "$work" -lsundial 2> "$work/said" \
    || ! grep -q sundial_version_0 "$work/said"; then
    echo "checks: a program with the header of another library does not fail to link" >&2
    exit 1
fi
"$work/writer" "$work/page" 50 60 &
writer=$!
trap 'kill "$writer" 2> /dev/null; rm -rf "$work"' EXIT

# Whether the reader commits: at some try, since a busy machine stops writers for long.
reads() {
    for ((i = 0; i < 500; i++)); do
        "$work/reader" "$work/page" 1000000000 > "$work/said" 2>&1 && return
        sleep 0.01
    done
    cat "$work/said" >&2
    return 1
}
reads && cat "$work/said" || exit 1
if command -v python3 > /dev/null; then
    ./clock_languages "$work/libsundial.so.1" "$work/page" && ./clock_reader.py "$work/page" || exit 1
else
    echo "checks: left out, as there is no python3: the clock page in Python"
fi
kill -USR1 "$writer" && sleep 0.1 && reads || exit 1
kill "$writer" && wait "$writer"
"$work/reader" "$work/page" 2> "$work/said"
if [ "$(cat "$work/said")" != "clock_reader: no stamp now: WITHDRAWN" ]; then
    echo "checks: a page that was withdrawn: $(cat "$work/said")" >&2
    exit 1
fi
