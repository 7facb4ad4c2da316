#!/usr/bin/env bash
# The programs plan and plan34: arguments and lines, and its plans judged by the independent model (PLANS more pairs on request: PLANS=100000 tests/plan.sh).
set -u
cd "$(dirname "${BASH_SOURCE[0]}")/.." || exit 2
bad=0
fail() {
    echo "plan: $*"
    bad=1
}
same() { # WHAT WANTED GOT
    [ "$2" = "$3" ] || fail "$1: wanted '$2', got '$3'"
}

same "two arguments" $'plan\t0cff\t04fe\t0cfd' "$(./ghixramel plan fdfffffeffff00000000 fefffffdffff00000000)"
same "start equal to goal" 'plan' "$(./ghixramel plan ffffffffffff00000000 ffffffffffff00000000)"
same "a stuck pin" $'refused\t4' "$(./ghixramel plan fffffffeffff00000000 fffffffeffff01010000 2>/dev/null)"
same "one argument" $'refused\t7' "$(./ghixramel plan ffffffffffff00000000 2>/dev/null)"
./ghixramel plan ffffffffff7f00000000 ffffffffff7f04000080 2>&1 >/dev/null | grep -q 'pin 23 (port 2, bit 7)' || fail "a refusal 4 does not name pin 23"
./ghixramel plan fd fe 2>&1 >/dev/null | grep -q 'ten bytes each' || fail "a refusal 5 does not say what a setting is"
./ghixramel plan FDFFFFFEFFFF00000000 fefffffdffff00000000 2>&1 >/dev/null | grep -q 'lowercase hex' || fail "a refusal 7 does not say what a setting looks like"

same "the sister: start equal to goal" 'plan' "$(./ghixramel plan34 ffffffff03ffffffff03000000000000 ffffffff03ffffffff03000000000000)"
same "the sister: two pins of its last port" $'plan\t13' "$(./ghixramel plan34 ffffffff01ffffffff02000000000000 ffffffff02ffffffff01000000000000 | cut -c 1-7)"
same "the sister: a stuck pin" $'refused\t4' "$(./ghixramel plan34 ffffffff03ffffffff01000000000000 ffffffff03ffffffff01100000000002 2>/dev/null)"
same "the sister: one argument" $'refused\t7' "$(./ghixramel plan34 ffffffff03ffffffff03000000000000 2>/dev/null)"
same "the sister: ten bytes" $'refused\t5' "$(./ghixramel plan34 fdfffffeffff00000000 fefffffdffff00000000 2>/dev/null)"
same "the sister: a pin that there is not" $'refused\t5' "$(./ghixramel plan34 ffffffff07ffffffff03000000000000 ffffffff03ffffffff03000000000000 2>/dev/null)"
same "the sister: a port that there is not" $'refused\t5' "$(./ghixramel plan34 ffffffff03ffffffff03200000000000 ffffffff03ffffffff03000000000000 2>/dev/null)"
same "sixteen bytes for 24 pins" $'refused\t5' "$(./ghixramel plan ffffffff03ffffffff03000000000000 ffffffff03ffffffff03000000000000 2>/dev/null)"
./ghixramel plan34 ffffffff03ffffffff01000000000000 ffffffff03ffffffff01100000000002 2>&1 >/dev/null | grep -q 'pin 33 (port 4, bit 1).*53' ||
    fail "a refusal 4 does not name pin 33 and 53"
./ghixramel plan34 fd fe 2>&1 >/dev/null | grep -q 'sixteen bytes each' || fail "a refusal 5 does not say what the sister's setting is"

# a line of a million digits is one answer, in whatever pieces it comes
long=$(head -c 1000000 /dev/zero | tr '\0' 'f')
long_lines() { # PROGRAM SETTING
    same "$1: a long field" $'refused\t5\nplan' "$(printf '%s\t%s\n%s\t%s' "$long" "$2" "$2" "$2" | ./ghixramel "$1" 2>/dev/null)"
    same "$1: a long line of no fields" $'refused\t7' "$(printf '%s' "$long" | ./ghixramel "$1" 2>/dev/null)"
}
long_lines plan ffffffffffff00000000
long_lines plan34 ffffffff03ffffffff03000000000000

for program in plan plan34; do
    python3 tests/model/compare.py $program ./ghixramel $program --seed "${SEED:-1}" --count "${PLANS:-20000}" || bad=1
done
exit $bad
