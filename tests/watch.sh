#!/usr/bin/env bash
# The program watch: the shipped examples, and seeded logs against the independent model (SEED and LOGS on request: LOGS=20000 SEED=7 tests/watch.sh).
set -u
cd "$(dirname "${BASH_SOURCE[0]}")/.." || exit 2
name=watch
. tests/talk.bash

try_examples
try_empty $'answer\tint\tlow\thigh\tmarks'
begin_talk
# nothing is signed off before a device, nor made by a line of trace
want $'sign\t00' $'refused\t7'
want $'device\t2\t000000' $'refused\t7'
want 'start' $'refused\t7'
want $'device\t2\t000000\t000002' $'-\t1\t000000\t000000\tffffff'
want $'sign\t00' $'-\t1\t000000\t000000\tfffffe'
# pin 1 is not at its healthy level, and the pins end with 23
want $'sign\t01' $'refused\t13'
want $'sign\t17' $'-\t1\t000000\t000000\t7ffffe'
want $'sign\t18' $'refused\t2'
# pin 0 unmasked and lost: its mark is set, and the reset does not clear it
for line in 'start' $'byte\t44' $'byte\t54' $'byte\tfe'; do ask "$line"; done
want $'pins\t000001' $'-\t0\t000000\t000000\t7fffff'
want 'reset' $'-\t1\t000000\t000000\t7fffff'
want $'sign\t00' $'refused\t13'
# the sister has nine digits, and a later device line goes back to six, all of its pins marked
want $'device34\t2\t000000000\t200000000' $'-\t1\t000000000\t000000000\t3ffffffff'
want $'sign\t20' $'-\t1\t000000000\t000000000\t2ffffffff'
want $'sign\t21' $'refused\t13'
want $'pins\t200000000' $'-\t1\t000000000\t000000000\t2ffffffff'
want $'sign\t21' $'-\t1\t000000000\t000000000\t0ffffffff'
want $'sign\t22' $'refused\t2'
for line in $'sign\t1' $'sign\t001' $'sign\t0A' $'sign\t00\r' $'pins\t000001' $'device34\t2\t000000000' $'device34\t2\t000000\t000000' \
    $'device34\t2\t000000000\t400000000' $'device34\t2\t400000000\t000000000' $'device\t2\t000000000\t000000000' \
    $'device\t2\t000000\t000000\t000000' $'device\t4\t000000\t000000'; do
    want "$line" $'refused\t7'
done
want 'stop' $'-\t1\t000000000\t000000000\t0ffffffff'
want $'device\t1\t000000\tffffff' $'-\t1\t000000\t000000\tffffff'
want $'sign\t00' $'refused\t13'
end_talk
try_long_line
try_model "${LOGS:-750}"
exit $bad
