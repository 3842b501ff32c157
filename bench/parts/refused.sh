#!/usr/bin/env bash
# Refuses each allocation of some small runs in turn: each such run has to end with status 6 behind whole lines of what the
# run writes when it gets its memory, and with one line on standard error, or as that run does.
# usage: bench/parts/refused.sh PROGRAM, or bench/all --only refused PROGRAM
# PROGRAM is the proved program, as `rt run` in crates/sundial leaves it below crates/sundial/out/. cc makes a library that
# stands before the C library's and answers the call with the number REFUSE with no memory.
set -eu
program=$(realpath "$1")
folder=$(mktemp -d)
trap 'rm -rf "$folder"' EXIT
cd "$folder"

cat >refuse.c <<'END'
#define _GNU_SOURCE
#include <dlfcn.h>
#include <stdio.h>
#include <stdlib.h>
#include <unistd.h>
static long calls, refused = -1;
static void *(*take)(size_t), *(*retake)(void *, size_t);
static int refuses(void) {
    if (!take) {
        const char *number = getenv("REFUSE");
        take = dlsym(RTLD_NEXT, "malloc");
        retake = dlsym(RTLD_NEXT, "realloc");
        refused = number ? atol(number) : 0;
    }
    return ++calls == refused;
}
void *malloc(size_t size) { return refuses() ? NULL : take(size); }
void *realloc(void *old, size_t size) { return refuses() ? NULL : retake(old, size); }
__attribute__((destructor)) static void tell(void) {
    char line[32];
    if (refused == 0) write(2, line, snprintf(line, sizeof line, "%ld\n", calls));
}
END
cc -O1 -shared -fPIC -o refuse.so refuse.c -ldl

# runs the words with the allocation of this number refused; 0 refuses none, and `told` ends with how many there are
run() {
    local number=$1
    shift
    status=0
    REFUSE=$number LD_PRELOAD=$folder/refuse.so "$program" "$@" >answer 2>told || status=$?
}

complaint="sundial: out of memory"

# a row: its name, then the words
row() {
    local name=$1 whole whole_status calls memory=0
    shift
    run 0 "$@"
    whole_status=$status
    cp answer whole
    calls=$(tail -n 1 told)
    if ! [ "$calls" -gt 0 ] 2>/dev/null; then
        echo "$name: no allocation was counted: the library does not stand before the program's own"
        exit 1
    fi
    for number in $(seq "$calls"); do
        run "$number" "$@"
        if [ "$status" = "$whole_status" ] && cmp -s answer whole && [ ! -s told ]; then continue; fi
        if [ "$status" = 6 ] && head -n "$(wc -l <answer)" whole | cmp -s - answer && [ "$(cat told)" = "$complaint" ]; then
            memory=$((memory + 1))
            continue
        fi
        echo "$name: allocation $number ends with status $status and"
        cat answer told
        exit 1
    done
    echo "$name: $calls allocations, status $whole_status; $memory of them refused end with status 6"
}

cat >solo <<'END'
start 1000000 0 0 1000000 500
ask 6000000 0 5000000
end 6000000
END
cat >fabric <<'END'
version = 1
ppm = 200
grain = 1000
period = 100000000
tick = 10000000
loss = 1
depth = 3
roots = ["s1", "s2"]
device = [{ name = "s1" }, { name = "s2" }, { name = "l1" }, { name = "l2" }, { name = "l3" }]
link = [
    { name = "a1", ends = ["s1", "l1"], min = 400000, max = 1000000 },
    { name = "a2", ends = ["s1", "l2"], min = 400000, max = 1000000 },
    { name = "a3", ends = ["s1", "l3"], min = 400000, max = 1000000 },
    { name = "b1", ends = ["s2", "l1"], min = 400000, max = 1000000 },
    { name = "b2", ends = ["s2", "l2"], min = 400000, max = 1000000 },
    { name = "b3", ends = ["s2", "l3"], min = 400000, max = 1000000 },
]
END
cat >triangle <<'END'
version = 1
ppm = 200
grain = 1000
period = 100000000
tick = 90000000
loss = 1
depth = 2
roots = ["r", "b"]
device = [{ name = "r" }, { name = "b" }, { name = "x" }]
link = [
    { name = "rb", ends = ["r", "b"], min = 400000, max = 1000000 },
    { name = "rx", ends = ["r", "x"], min = 400000, max = 1000000 },
    { name = "bx", ends = ["b", "x"], min = 400000, max = 1000000 },
]
END
cat >first <<'END'
{"version":1,"root":"r","backup_root":"b","wait_first":1345000000,"wait_second":1345000000,"wait":6730000000,"absent_devices":[],"absent_links":[],"rows":[{"device":"b","parent":"r","link":"rb","backup":"x","backup_link":"bx"},{"device":"x","parent":"r","link":"rx","backup":"b","backup_link":"bx"}]}
END
sed 's/"backup_root":"b"/"backup_root":"x"/' first >second
cat >base <<'END'
start 0 0 0 0 500
start 0 1 0 0 800000
start 0 2 0 0 800000
tick 90000000 0 90000000
tick 90000000 1 90000000
tick 90000000 2 90000000
tick 110000000 0 110000000
recv 110700000 1 110700000 1
recv 111000000 2 111000000 2
recv 111400000 2 111400000 3
recv 111700000 1 111700000 4
END
cat base - >asked <<'END'
ask 121000000 2 121000000
end 121000000
END
cat base - >renewed <<'END'
stage 112000000
give 112000000 0
give 112000000 1
give 112000000 2
commit 112000000 0 112000000
tick 170000000 0 170000000
tick 170000000 1 170000000
tick 170000000 2 170000000
tick 215000000 0 215000000
recv 215700000 1 215700000 5
ask 215700000 1 215700000
ask 215700000 2 215700000
recv 216000000 2 216000000 6
seal 216000000 0
seal 216000000 1
seal 216000000 2
recv 216400000 2 216400000 7
recv 216700000 1 216700000 8
end 216700000
END

row "solo: plain growth" solo solo
row "plan: fabric" plan fabric
"$program" plan fabric >greedy
row "check: fabric accepted" check fabric greedy
row "replay: triangle" replay triangle first asked
row "replay: renewal" replay triangle first second renewed
row "case: two leaves" case 1 2 3
