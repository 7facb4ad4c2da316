#!/usr/bin/env bash
# The program compare: the shipped examples, files that cannot be read, lines and files of any length, then seeded events and answers against the
# independent model, from files and from pipes (SEED and PAIRS on request: PAIRS=10000 SEED=7 tests/compare.sh).
set -u
cd "$(dirname "${BASH_SOURCE[0]}")/.." || exit 2
. c/kit.sh
room=$(mktemp -d) || exit 2
trap 'rm -rf "$room"' EXIT
bad=0
fail() {
    echo "compare: $*"
    bad=1
}
same() { # WHAT WANTED GOT
    [ "$2" = "$3" ] || fail "$1: wanted '$2', got '$3'"
}

for log in examples/*.trace; do
    same "$log" 'agrees' "$(./ghixramel compare "$log" "${log%.trace}.answers" 2>/dev/null)"
done
same "examples/bench.answers" $'departs\n-\t0\t000000\t000000' "$(./ghixramel compare examples/incident.trace examples/bench.answers 2>/dev/null)"

# it stands now; every pair is a run of its own, and the launcher would look each time whether it is to be built
program=("${launch[@]}" crates/compare/out/compare)
header=$'answer\tint\tlow\thigh'
events=$room/events answers=$room/answers
printf 'device\t2\t000000\nstart\nbyte\t44\n' >"$events"
printf '%s\n' "$header" $'-\t1\t000000\t000000' $'-\t1\t000000\t000000' $'nak\t1\t000000\t000000' >"$answers"
compare() { # ARGUMENTS..
    timeout 60 "${program[@]}" "$@" </dev/null >"$room/out" 2>"$room/said"
}
told() { # WHAT OUTPUT REMARKS EVENTS ANSWERS
    compare "$4" "$5"
    same "$1" "$2" "$(cat "$room/out")"
    same "$1, for a person" "$3" "$(cat "$room/said")"
}

told "a line that departs" $'departs\nnak\t1\t000000\t000000' \
    $'compare: line 4 departs\nevent: byte\t44\nexpected: ack\t1\t000000\t000000\nfound: nak\t1\t000000\t000000' "$events" "$answers"
told "a line that is missing" 'ends early' \
    $'compare: line 4 is missing\nevent: byte\t44\nexpected: ack\t1\t000000\t000000' "$events" <(head -n 3 "$answers")
told "a line left over" $'left over\nnak\t1\t000000\t000000' \
    $'compare: line 4 is left over\nexpected: nothing, the events end before it\nfound: nak\t1\t000000\t000000' <(head -n 2 "$events") "$answers"
told "nothing asked" 'agrees' 'compare: 1 line agrees' /dev/null <(printf '%s' "$header")
told "nothing asked or told" 'ends early' $'compare: line 1 is missing\nevent: none, this is the header\nexpected: '"$header" /dev/null /dev/null

refused() { # WHAT ARGUMENTS..
    local what=$1
    shift
    compare "$@"
    [ ! -s "$room/out" ] || fail "$what: standard output has $(wc -c <"$room/out") bytes"
    [ "$(head -c 9 "$room/said")" = 'compare: ' ] || fail "$what: standard error begins '$(head -c 60 "$room/said" | head -n 1)'"
    [ "$(wc -l <"$room/said")" -eq 1 ] || fail "$what: standard error has $(wc -l <"$room/said") lines, wanted one"
}
refused "no arguments"
refused "one argument" "$events"
refused "three arguments" "$events" "$answers" "$answers"
long=$(head -c 5000 /dev/zero | tr '\0' 'x')
for name in "$room/nothing" "$room" "$events/answers" "$long" ''; do
    refused "'${name:0:40}' for events" "$name" "$answers"
    refused "'${name:0:40}' for answers" "$events" "$name"
    refused "'${name:0:40}' for events, and answers that depart at once" "$name" "$events"
done

# a line of ten million bytes is one line, and a file may have any number of them
xs() {
    head -c 10000000 /dev/zero | tr '\0' 'x'
}
dots=xxxxxxxxxxxxxxxxxxxxxxxxxxxxxxxx...
told "a long event" 'agrees' 'compare: 2 lines agree' <(xs) <(printf '%s\nrefused\t7\n' "$header")
told "a long event's missing line" 'ends early' $'compare: line 2 is missing\nevent: '"$dots"$'\nexpected: refused\t7' <(xs) <(echo "$header")
compare /dev/null <(xs)
cmp -s <(echo departs; xs; echo) "$room/out" || fail "a long answer: not the line itself on standard output"
same "a long answer, for a person" "found: $dots" "$(tail -n 1 "$room/said")"
compare /dev/null <(echo "$header"; xs; echo; xs)
cmp -s <(echo 'left over'; xs; echo) "$room/out" || fail "a long line left over: not the line itself on standard output"
told "a million lines" 'agrees' 'compare: 1000001 lines agree' <(yes '' | head -n 1000000) <(echo "$header"; yes $'refused\t7' | head -n 1000000)

python3 tests/model/compare.py logs "${program[@]}" --seed "${SEED:-1}" --count "${PAIRS:-400}" || bad=1
exit $bad
