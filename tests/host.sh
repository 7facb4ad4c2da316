#!/usr/bin/env bash
# The library as a C program calls it: the header in each language, its own checks (tests/c/host.c), then the independent model on seeded
# images, logs, plans, views, bursts without and with marks, sign-offs, new marks, watch logs and pairs of events and answers (SEED, IMAGES,
# LOGS, PLANS, VIEWS, BURSTS, MARKED_BURSTS, SIGN_OFFS, NEW_MARKS, WATCHES and PAIRS on request: IMAGES=100000 SEED=7 tests/host.sh).
# tests/host.sh TARGET: the same on the library for another processor (tools/archive); where that is emulated one case in ONE_IN is tried, ten
# if nothing is said: ONE_IN=1 tests/host.sh riscv64.
set -u
cd "$(dirname "${BASH_SOURCE[0]}")/.." || exit 2
. c/kit.sh
out=target/host
one_in=1
if [ $# -gt 0 ]; then
    . c/targets.sh
    target=$1
    choose_target "$target" || { echo "host: no target '$target'" && exit 2; }
    . c/bare/kit.sh
    out=target/archive/$target/tests
    [ -z "$emulator" ] || one_in=${ONE_IN:-10}
fi
bad=0
fail() {
    echo "host: $*"
    bad=1
}

objects() { # NAMES..
    local name
    for name; do echo "$out/$name.o"; done
}

# programs over one part: linked with the part that comes first
build_lines() { # PART PEER_OPTIONS..
    local part=$1 watched="checks guarded stack parts$1"
    shift
    compile_c "$out/peer_probe$part.o" c/peer_probe.c "$@" && compile_c "$out/peer_trace$part.o" c/peer_trace.c "$@" || return 1
    # shellcheck disable=SC2046,SC2086
    link_c "$out/probe$part" $(objects peer_probe$part as_peer $watched) "$library" &&
        link_c "$out/trace$part" $(objects peer_trace$part as_peer $watched) "$library" &&
        link_c "$out/plan$part" $(objects plan_lines $watched) "$library" &&
        link_c "$out/views$part" $(objects view_lines $watched) "$library" &&
        link_c "$out/burst$part" $(objects burst_lines $watched) "$library" &&
        link_c "$out/marked_burst$part" $(objects marked_burst_lines $watched) "$library" &&
        link_c "$out/sign_off$part" $(objects sign_off_lines $watched) "$library" &&
        link_c "$out/new_marks$part" $(objects new_marks_lines $watched) "$library"
}

build() {
    local name host="host checks guarded stack parts images words master inventory losses refused"
    host+=" points identity refusals broken carried shows plans bursts marks compares"
    mkdir -p "$out" || return 1
    for name in $host as_peer {plan,view,burst,marked_burst,sign_off,new_marks,watch}_lines log_pairs; do
        compile_c "$out/$name.o" "tests/c/$name.c" -DONE_IN="$one_in" || return 1
    done
    for name in mix peer; do
        compile_c "$out/$name.o" "c/$name.c" || return 1
    done
    compile_c "$out/parts34.o" tests/c/parts.c -DFIRST_PART=1 || return 1
    # shellcheck disable=SC2046,SC2086
    link_c "$out/host" $(objects $host mix peer) "$library" &&
        link_c "$out/watch" $(objects watch_lines checks guarded stack parts) "$library" &&
        link_c "$out/log_pairs" $(objects log_pairs checks guarded stack parts) "$library" &&
        build_lines "" && build_lines 34 -DPEER_DIGITS=9 '-DPEER_DEVICE="device34"'
}

# a layout other than the one that the header asserts, or a name that C++ has changed, stops here
try_header() { # NAME OPTIONS..
    local program=$out/header_$1
    shift
    compile_c "$program.o" tests/c/header.c -pedantic "$@" && link_c "$program" "$program.o" "$library" && "${launch[@]}" "$program"
}

judge() { # WHAT PROGRAM COUNT
    python3 tests/model/compare.py "$1" "${launch[@]}" "$out/$2" --seed "${SEED:-1}" --count "$3" --one-in "$one_in" || bad=1
}

judge_part() { # PART PINS
    judge "probe$2" "probe$1" "${IMAGES:-5000}"
    judge "trace$2" "trace$1" "${LOGS:-300}"
    judge "plan$2" "plan$1" "${PLANS:-500}"
    judge "views$2" "views$1" "${VIEWS:-3000}"
    judge "burst$2" "burst$1" "${BURSTS:-2000}"
    judge "marked-bursts$2" "marked_burst$1" "${MARKED_BURSTS:-2000}"
    judge "sign-offs$2" "sign_off$1" "${SIGN_OFFS:-3000}"
    judge "new-marks$2" "new_marks$1" "${NEW_MARKS:-1000}"
}

need_library || exit 1
build || exit 1

# a WebAssembly module is linked by itself already: what it imports are read, write and exit
[ "${system:-}" = wasm ] || "$tools/bin/ld.lld" -w -static -e 0 -T tests/c/alone.ld --whole-archive "$library" -o "$out/alone" ||
    fail "the library needs a symbol of others, or keeps data"

try_header c99 -std=c99 || fail "the header as C99"
try_header c11 -std=c11 || fail "the header as C11"
try_header c++11 -x c++ -std=c++11 || fail "the header as C++11"
# where pointers and alignment have 32 bits; this library is for 64, so this one is not linked
[ $# -gt 0 ] || compile_c "$out/header_32.o" tests/c/header.c -m32 || fail "the header for 32 bits"

"${launch[@]}" "$out/host" || bad=1
judge_part "" 24
judge_part 34 34
# of both parts: their lines say which
judge watch watch "${WATCHES:-300}"
judge log-pairs log_pairs "${PAIRS:-4000}"
exit $bad
