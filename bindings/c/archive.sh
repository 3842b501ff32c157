#!/usr/bin/env bash
# Builds the library for another target. Its archive does not take the place of the one for this machine.
#
#     bindings/c/archive.sh TARGET
#     bindings/c/archive.sh rattle
#
# TARGET is a name that `rt lib --target` takes, such as aarch64-unknown-linux-gnu. The archive is then
# crates/sd_device_c/out/TARGET/libsd_device_c.a, and the last line says so. `rattle` is no target: the
# archive is for this machine, and Rattle's own compiler builds it in place of clang.
set -eu
[ $# -eq 1 ] || { sed -n '2,10s/^# *//p' "$0" >&2; exit 2; }
target=$1
cd "$(dirname "$0")/../../crates/sd_device_c"
# (`rt lib` writes the archive of each target to one place)
mkdir -p "out/$target"
own=$(mktemp -d out/own.XXXXXX)
put_back() {
    [ ! -e "$own/libsd_device_c.a" ] || mv "$own/libsd_device_c.a" out/libsd_device_c.a
    rmdir "$own"
}
trap put_back EXIT
[ ! -e out/libsd_device_c.a ] || mv out/libsd_device_c.a "$own"
if [ "$target" = rattle ]; then
    rt lib --backend rattle
else
    rt lib --target "$target"
fi
mv out/libsd_device_c.a "out/$target/libsd_device_c.a"
echo "crates/sd_device_c/out/$target/libsd_device_c.a"
