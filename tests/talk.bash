# Sourced at the root by the tests of a program that answers a log line by line, with its name in $name: talking to it through a pipe.
bad=0
fail() {
    echo "$name: $*"
    bad=1
}

try_examples() {
    local log
    for log in "examples/"*".$name"; do
        ./ghixramel "$name" <"$log" | cmp -s - "${log%."$name"}.answers" || fail "$log: other answers"
    done
}

try_empty() { # HEADER
    [ "$(./ghixramel "$name" </dev/null)" = "$1" ] || fail "an empty log does not give the header alone"
}

# a host that talks through a pipe has each answer before it sends the next line
begin_talk() {
    coproc ./ghixramel "$name"
    talks=$COPROC_PID
    IFS= read -r -t 20 told <&"${COPROC[0]}" || fail "no header"
}

ask() { # LINE, then the answer must come
    printf '%s\n' "$1" >&"${COPROC[1]}"
    IFS= read -r -t 20 told <&"${COPROC[0]}" || fail "no answer to '$1'"
}

want() { # LINE ANSWER
    ask "$1"
    [ "$told" = "$2" ] || fail "'$1' got '$told', wanted '$2'"
}

end_talk() {
    eval "exec ${COPROC[1]}>&-"
    wait "$talks" 2>/dev/null
}

# a line of ten million bytes is one refusal
try_long_line() {
    local lines
    lines=$(head -c 10000000 /dev/zero | tr '\0' 'x' | ./ghixramel "$name" | wc -l)
    [ "$lines" -eq 2 ] || fail "a long line gave $lines lines, wanted the header and one refusal"
}

# seeded logs against the independent model
try_model() { # COUNT
    python3 tests/model/compare.py "$name" ./ghixramel "$name" --seed "${SEED:-1}" --count "$1" || bad=1
}
