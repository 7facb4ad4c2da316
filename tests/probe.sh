#!/usr/bin/env bash
# The programs probe and probe34: seeded images against the independent model (SEED and IMAGES on request: IMAGES=200000 SEED=7 tests/probe.sh).
set -u
cd "$(dirname "${BASH_SOURCE[0]}")/.." || exit 2
bad=0
fail() {
    echo "probe: $*"
    bad=1
}

for program in probe probe34; do
    [ -z "$(./ghixramel $program </dev/null)" ] || fail "$program: an empty input gives an answer"
done

zeros() { # COUNT
    printf "%0$1d" 0
}

# a host that talks through a pipe has each answer before it sends the next line: the image after is the next one's image
ask() { # KIND ARGUMENT, then the answer must come
    printf '%s\t%s\t%s\n' "$image" "$1" "$2" >&"${COPROC[1]}"
    IFS= read -r -t 20 told <&"${COPROC[0]}" || fail "no answer to event $1 $2"
    image=$(cut -f 5- <<<"$told")
}

# a power-on image, the mask of a port that is unmasked over the bus, a pin of it that rises, and what is told then
talk() { # PROGRAM REGISTERS MASK VALUE LEVELS WANTED
    local program=$1
    coproc ./ghixramel "$program"
    local running=$COPROC_PID
    image="$2$(printf '\t%016d' 0 0 0 0)"$'\t00\t00\t02\t0000000000000000\t01\t00\t00123456\t01'
    ask 00000000 0000000000000000
    ask 00000002 0000000000000044
    ask 00000002 00000000000000"$3"
    ask 00000002 00000000000000"$4"
    ask 00000004 "$5"
    [ "$(cut -f 1-4,13- <<<"$told")" = "$6" ] || fail "$program: a pin's rise got '$told'"
    eval "exec ${COPROC[1]}>&-"
    wait "$running" 2>/dev/null
    # there is one form: an image without the Device ID is none, nor one without the mode, or without status and line too
    local older
    for older in 8 10 11; do
        [ "$(printf '%s\t00000000\t0000000000000000\n' "$(cut -f 1-$older <<<"$image")" | ./ghixramel "$program")" = $'refused\t7' ] ||
            fail "$program: an image of $older fields is readable"
    done
}

registers24=$(zeros 8)ffffff$(zeros 10)ffffff$(zeros 98)ffffffffffff$(zeros 20)ffffff00ffffff$(zeros 82)
registers34=$(zeros 10)ffffffff03$(zeros 10)ffffffff03$(zeros 56)ffffffffffffffff0f$(zeros 22)ffffffff03ffffffff03$(zeros 100)
talk probe "$registers24" 54 fe 0000000000000001 $'-\t0\t000000\t000000\t0000000000000001\t00\t00\t00123456\t01'
talk probe34 "$registers34" 4d fd 0000000200000000 $'-\t0\t000000000\t000000000\t0000000200000000\t00\t00\t00123456\t01'
# the same, as a host says it that steps over the whole map
talk probe "$registers24" d4 fe 0000000000000001 $'-\t0\t000000\t000000\t0000000000000001\t00\t01\t00123456\t01'
talk probe34 "$registers34" cd fd 0000000200000000 $'-\t0\t000000000\t000000000\t0000000200000000\t00\t01\t00123456\t01'

# one part's image is broken for the other
one() { # PROGRAM REGISTERS [MODE [NUMBER [PLACE [BUS]]]]
    printf '%s\t00\t%s\t02\t0000000000000000\t01\t%s\t%s\t%s\t00000000\t0000000000000000\n' "$2$(printf '\t%016d' 0 0 0 0)" \
        "${6:-00}" "${3:-00}" "${4:-00000000}" "${5:-00}" | ./ghixramel "$1"
}
[ "$(one probe "$registers34")" = $'refused\t3' ] || fail "probe takes the sister's image"
[ "$(one probe34 "$registers24")" = $'refused\t3' ] || fail "probe34 takes the 24-pin part's image"
# there are two modes
[ "$(one probe "$registers24" 01 | cut -f 1,15)" = $'-\t01' ] || fail "probe does not take mode 1"
[ "$(one probe34 "$registers34" 01 | cut -f 1,15)" = $'-\t01' ] || fail "probe34 does not take mode 1"
for mode in 02 80 81 ff; do
    [ "$(one probe "$registers24" $mode)" = $'refused\t3' ] || fail "probe takes mode $mode"
    [ "$(one probe34 "$registers34" $mode)" = $'refused\t3' ] || fail "probe34 takes mode $mode"
done

# a Device ID has 24 bits, three places, and bus states up to 11; START goes on from Named
for program in probe probe34; do
    registers=$registers24
    [ $program = probe ] || registers=$registers34
    [ "$(one $program "$registers" 00 00ffffff 02 09 | cut -f 1,11,16-)" = $'-\t0a\t00ffffff\t02' ] || fail "$program does not take a Device ID"
    [ "$(one $program "$registers" 00 01000000)" = $'refused\t3' ] || fail "$program takes a Device ID of 25 bits"
    [ "$(one $program "$registers" 00 00000000 03)" = $'refused\t3' ] || fail "$program takes a fourth place"
    [ "$(one $program "$registers" 00 00000000 00 0c)" = $'refused\t3' ] || fail "$program takes a twelfth bus state"
done

for program in probe probe34; do
    # a line of ten million bytes is one refusal
    [ "$(head -c 10000000 /dev/zero | tr '\0' '0' | ./ghixramel $program)" = $'refused\t7' ] || fail "$program: a long line is not one refusal"
    python3 tests/model/compare.py $program ./ghixramel $program --seed "${SEED:-1}" --count "${IMAGES:-20000}" || bad=1
done
exit $bad
