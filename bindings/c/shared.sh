#!/usr/bin/env bash
# Makes libsundial.so.1: the proved library whole, and a symbol for each call that has its body in a header.
#
#     bindings/c/shared.sh LIBRARY FILE
#
# LIBRARY is libsd_device_c.a. It needs a C compiler, `cc` or what CC names.
set -eu
[ $# -eq 2 ] || { sed -n '2,4s/^# *//p' "$0" >&2; exit 2; }
library=$(realpath "$1")
file=$(realpath "$2")
cd "$(dirname "$0")"
"${CC:-cc}" -std=c11 -O2 -fPIC -shared -Wall -Wextra -Werror -I ../../include -Wl,-soname,libsundial.so.1 -Wl,-z,defs \
    -Wl,--version-script=sundial.map -o "$file" sundial.c -Wl,--whole-archive "$library" -Wl,--no-whole-archive
chmod 644 "$file"
