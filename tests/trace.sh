#!/usr/bin/env bash
# The program trace: the shipped examples, and seeded logs against the independent model (SEED and LOGS on request: LOGS=20000 SEED=7 tests/trace.sh).
set -u
cd "$(dirname "${BASH_SOURCE[0]}")/.." || exit 2
name=trace
. tests/talk.bash

try_examples
try_empty $'answer\tint\tlow\thigh'
begin_talk
ask $'device\t2\t000000'
ask 'start'
want $'byte\t44' $'ack\t1\t000000\t000000'
# bit 7 of a command lets it step over the whole map: after 5C comes 60
want $'byte\tdc' $'ack\t1\t000000\t000000'
# the sister has nine digits, and a later device line goes back to six
want $'device34\t2\t000000000' $'-\t1\t000000000\t000000000'
want $'pins\t3ffffffff' $'-\t1\t000000000\t000000000'
for line in $'pins\t400000000' $'pins\t000001' $'device34\t2\t000000' $'device34\t2\t400000000' $'device\t2\t000000000'; do
    want "$line" $'refused\t7'
done
want $'device\t1\t000000' $'-\t1\t000000\t000000'
want $'pins\t000000001' $'refused\t7'
end_talk
try_long_line
try_model "${LOGS:-1000}"
exit $bad
