#!/usr/bin/env bash
# What the header and the bindings in C are held to beside their example.
#
#     bindings/c/checks.sh LIBRARY [SECONDS]
#
# LIBRARY is libsd_device_c.a. With each compiler that is there: header and bindings compile without a warning, as C11
# and as C++17, and a program in C++ makes every call. The header compiles for 32-bit cores that lay out structs as the
# library does. Then, where the compiler can: the duties of sundial-duty beside those of fabric.h, the compact log beside
# the schedule, what the header computes, what is kept, a device for years, sundial_clock.h (clock_checks.sh), what the
# host takes and drops, the example, the recorder and the host under the address and undefined-behaviour sanitizers, the
# fuzzer for SECONDS (3), a program without a C library, and what pkg-config says. A line with "left out" names what is
# not there.
set -u
library=$(realpath "$1") || exit 2
seconds=${2:-3}
cd "$(dirname "$0")" || exit 2
work=$(mktemp -d) || exit 2
trap 'rm -rf "$work"' EXIT
warnings=(-Wall -Wextra -Wpedantic -Wconversion -Wshadow -Werror -I ../../include -I .)
sanitizers=(-g -O1 -fsanitize=address,undefined -fno-sanitize-recover=all)
bad=0

fail() {
    echo "checks: $*" >&2
    bad=1
}

there() {
    command -v "$1" > /dev/null
}

# Each header by itself, and each source, as this compiler takes them.
compiled=()
compile() { # compiler standard language file..
    local compiler=$1 standard=$2 language=$3 file
    shift 3
    for file in "$@"; do
        case "$file" in
            *.h) echo "#include \"$file\"" > "$work/alone.c" && source=$work/alone.c ;;
            *) source=$file ;;
        esac
        "$compiler" -std="$standard" -x "$language" -O2 "${warnings[@]}" -c -o "$work/object" "$source" \
            || fail "$compiler does not compile $file as $standard"
    done
    compiled+=("$compiler $standard")
}

headers=(sundial_device.h recorder.h sundial_clock.h)
for compiler in gcc clang; do
    there "$compiler" || { echo "checks: left out, as there is no $compiler"; continue; }
    compile "$compiler" c11 c "${headers[@]}" recorder.c recorder_test.c embed.c fuzz.c years.c header_test.c kept_test.c clock_test.c clock_run.c clock_reader.c clock_writer.c sundial.c host/host.c ../../bench/embed/time.c
done
for compiler in g++ clang++; do
    there "$compiler" || { echo "checks: left out, as there is no $compiler"; continue; }
    compile "$compiler" c++17 c++ "${headers[@]}" recorder.c plus.cc
    "$compiler" -std=c++17 -O2 "${warnings[@]}" -o "$work/plus" plus.cc -x c++ recorder.c -x none "$library" \
        && "$work/plus" > "$work/said" || fail "the program that $compiler makes of plus.cc"
done
echo "checks: no warning by ${compiled[*]}"

# A 32-bit core takes what the header computes, where it lays out structs as the library does.
echo 'int main(void) { return 0; }' > "$work/nothing.c"
echo '#include "sundial_device.h"' > "$work/small.c"
for target in thumbv7m-none-eabi:takes riscv32-none-elf:takes i686-none-elf:refuses; do
    small=(clang "--target=${target%:*}" -std=c11 -ffreestanding -DSUNDIAL_NO_LIBRARY "${warnings[@]}" -c -o "$work/object")
    if ! there clang || ! "${small[@]}" "$work/nothing.c" 2> "$work/said"; then
        echo "checks: left out, as there is no clang for ${target%:*}: the header there"
        continue
    fi
    "${small[@]}" "$work/small.c" 2> "$work/said" && found=takes || found=refuses
    [ "$found" = "${target#*:}" ] || fail "clang $found the header for ${target%:*}"
done

compiler=${CC:-cc}
if there python3; then
    ../../tools/sundial-duty topology.toml plan-1.json plan-2.json plan-3.json -o "$work/duties.h" \
        && "$compiler" -std=c11 -DSUNDIAL_NO_LIBRARY -I "$work" "${warnings[@]}" -o "$work/duties" duties.c && "$work/duties" \
        || fail "the duties that sundial-duty writes"
else
    echo "checks: left out, as there is no python3: sundial-duty"
fi

if "$compiler" "${sanitizers[@]}" -o "$work/nothing" "$work/nothing.c" 2> "$work/said" && "$work/nothing"; then
    "$compiler" -std=c11 "${sanitizers[@]}" "${warnings[@]}" -o "$work/embed" embed.c recorder.c "$library" \
        && "$work/embed" 1 "$work/schedule" > "$work/told" && "$work/embed" 1 "$work/log" log > "$work/told" \
        && "$work/embed" 1 "$work/own" compact > "$work/told" \
        && echo "checks: the example under sanitizers, $(tail -1 "$work/told")" || fail "the example under sanitizers"
    "$compiler" -std=c11 -DSUNDIAL_NO_LIBRARY "${sanitizers[@]}" "${warnings[@]}" -o "$work/recorder" recorder_test.c recorder.c \
        && "$work/recorder" 50000 > "$work/said" && echo "checks: $(cat "$work/said"), under sanitizers" \
        || fail "the recorder under sanitizers"
    "$compiler" -std=c11 "${sanitizers[@]}" "${warnings[@]}" -o "$work/fuzz" fuzz.c "$library" \
        || fail "the fuzzer does not compile"
else
    echo "checks: left out, as $compiler has no sanitizers: the example, the recorder and the fuzzer under them"
    "$compiler" -std=c11 -O1 "${warnings[@]}" -o "$work/fuzz" fuzz.c "$library" || fail "the fuzzer does not compile"
fi
if "$work/fuzz" "$seconds" > "$work/told"; then
    tail -1 "$work/told"
else
    cat "$work/told" >&2
    fail "the fuzzer"
fi

"$compiler" -std=c11 -O2 -DSUNDIAL_NO_LIBRARY "${warnings[@]}" -o "$work/recorder" recorder_test.c recorder.c && "$work/recorder" 200000 \
    || fail "the recorder"
"$compiler" -std=c11 -O2 "${warnings[@]}" -o "$work/header" header_test.c "$library" && "$work/header" \
    || fail "what the header computes"
"$compiler" -std=c11 -O2 "${warnings[@]}" -o "$work/kept" kept_test.c "$library" && "$work/kept" \
    || fail "what is kept"
"$compiler" -std=c11 -O2 "${warnings[@]}" -o "$work/years" years.c "$library" && "$work/years" 1 \
    || fail "a device for years"

if [ "$(uname -s)" = Linux ] && there python3; then
    "$compiler" -std=c11 -O2 "${warnings[@]}" -o "$work/host" host/host.c recorder.c "$library" \
        && host/check "$work/host" || fail "the host"
    if "$compiler" "${sanitizers[@]}" -o "$work/nothing" "$work/nothing.c" 2> "$work/said" && "$work/nothing"; then
        "$compiler" -std=c11 "${sanitizers[@]}" "${warnings[@]}" -o "$work/host" host/host.c recorder.c "$library" \
            && host/check "$work/host" > "$work/said" && echo "checks: the host under sanitizers" \
            || fail "the host under sanitizers"
    fi
fi

if [ "$(uname -s)" = Linux ]; then
    ./clock_checks.sh "$library" || fail "sundial_clock.h"
fi

case "$(uname -s) $(uname -m)" in
    "Linux x86_64")
        # `begin` is entered as a program is, with the stack on 16 bytes: a call would have it off by 8.
        "$compiler" -std=c11 -O2 -ffreestanding -fno-stack-protector -mstackrealign -nostdlib -static \
            -Wl,-e,begin "${warnings[@]}" -o "$work/bare" bare.c "$library" -lgcc \
            && "$work/bare" && echo "checks: a program with -nostdlib and -lgcc" || fail "the program without a C library" ;;
esac

if there pkg-config; then
    ./install.sh "$library" "$work/usr" || fail "install.sh"
    words=$(PKG_CONFIG_PATH=$work/usr/lib/pkgconfig pkg-config --cflags --libs sundial-device) || fail "pkg-config"
    # (the words are several)
    # shellcheck disable=SC2086
    "$compiler" -x c++ -std=c++17 -o "$work/plus" plus.cc -I "$work/usr/share/sundial" "$work/usr/share/sundial/recorder.c" \
        -x none $words -lstdc++ && "$work/plus" > "$work/said" && echo "checks: pkg-config says $(wc -w <<< "$words") words, and they link" \
        || fail "a program by pkg-config's words"
    words=$(PKG_CONFIG_PATH=$work/usr/lib/pkgconfig pkg-config --cflags --libs sundial) || fail "pkg-config"
    printf '#include <sundial_clock.h>\nint main(void) { return sundial_version_1() != 1; }\n' > "$work/shared.c"
    # shellcheck disable=SC2086
    "$compiler" -std=c11 -o "$work/shared" "$work/shared.c" $words && LD_LIBRARY_PATH=$work/usr/lib "$work/shared" \
        || fail "a program over the installed libsundial.so"
else
    echo "checks: left out, as there is no pkg-config: what install.sh writes for it"
fi
exit "$bad"
