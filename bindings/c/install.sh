#!/usr/bin/env bash
# Installs the library, static and shared, with its headers and files for pkg-config.
#
#     bindings/c/install.sh LIBRARY PREFIX
#
# LIBRARY is libsd_device_c.a. Under PREFIX, as /usr/local, stand afterwards
#   - lib/libsd_device_c.a, the proved library (sundial-device of pkg-config)
#   - lib/libsundial.so: the same, and each call that has its body in a header (sundial of pkg-config)
#   - include/sundial_device.h and sundial_clock.h
#   - in share/sundial what is compiled into a program: the recorder.
# DESTDIR stands before PREFIX where the files are put, and not in what they say. LIBDIR names another folder than
# PREFIX/lib. It needs a C compiler, `cc` or what CC names.
set -eu
[ $# -eq 2 ] || { sed -n '2,4s/^# *//p' "$0" >&2; exit 2; }
library=$(realpath "$1")
prefix=$2
libraries=${LIBDIR:-$prefix/lib}
case "$prefix" in /*) ;; *) echo "install: PREFIX has to begin with /" >&2; exit 2 ;; esac
cd "$(dirname "$0")"
to=${DESTDIR:-}$prefix
lib=${DESTDIR:-}$libraries
install -d "$lib/pkgconfig" "$to/include" "$to/share/sundial"
install -m 644 "$library" "$lib/libsd_device_c.a"
./shared.sh "$library" "$lib/libsundial.so.1"
ln -sf libsundial.so.1 "$lib/libsundial.so"
install -m 644 ../../include/sundial_device.h "$to/include"
install -m 644 sundial_clock.h "$to/include"
install -m 644 recorder.c recorder.h "$to/share/sundial"

describe() { # name library what
    sed "s|@VERSION@|$(cat ../../VERSION)|; s|@PREFIX@|${prefix//|/\\|}|; s|@LIBDIR@|${libraries//|/\\|}|; s|@NAME@|$1|; s|@LIBRARY@|$2|; s|@WHAT@|$3|" \
        sundial.pc.in > "$lib/pkgconfig/$1.pc"
    chmod 644 "$lib/pkgconfig/$1.pc"
}
describe sundial-device sd_device_c "The core of a sundial device, a proved static library"
describe sundial sundial "The core of a sundial device and its clock, a shared library"
