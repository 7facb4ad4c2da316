#!/usr/bin/env bash
# ./ghixramel on a repository of its own, with one program that copies its input after its first argument.
set -u
root=$(cd "$(dirname "${BASH_SOURCE[0]}")/.." && pwd)
room=$(mktemp -d) || exit 2
trap 'rm -rf "$room"' EXIT
bad=0
fail() {
    echo "launcher: $*"
    bad=1
}

mkdir -p "$room/shelf/crates/copy/src" "$room/elsewhere"
cp "$root/ghixramel" "$room/shelf/ghixramel"
echo 'copy:' >"$room/shelf/crates.txt"
cat >"$room/shelf/crates/copy/src/main.rt" <<'RT'
// Writes its first argument and then what one read of its input gives.
#![tactic(auto)]

use std::env;
use std::io;
use std::io::Read;

fn main(rt: HostRuntime) -> io::Result<()> {
    for word in env::args(&rt)?.skip(1).take(1) {
        rt.write_all(word.as_bytes())?;
    }
    let mut buf = [0u8; 512];
    let n = rt.stdin().read(&mut buf)?;
    rt.write_all(&buf[..n])
}
RT

cd "$room/elsewhere" || exit 2
run=$room/shelf/ghixramel

"$run" nothing </dev/null >out 2>said && fail "an unknown program was run"
[ -s out ] && fail "an unknown program wrote to standard output"
grep -q "no program 'nothing'.*copy" said || fail "an unknown program's line names none: $(cat said)"
"$run" </dev/null >out 2>said && fail "no program was run"
grep -q 'copy' said || fail "the line without a program names none"

# every byte value, no newline at the end
for i in $(seq 0 255); do printf "\\x$(printf %02x "$i")"; done >in
"$run" copy x: <in >out 2>said || fail "copy ended with $?: $(tail -n 3 said)"
{ printf 'x:'; cat in; } >want
cmp -s out want || fail "input or output did not pass through"
grep -q 'proved' said || fail "what rt says is not on standard error"

# built already: nothing is said
"$run" copy y <in >out 2>said || fail "the second run ended with $?"
[ -s said ] && fail "the second run built again"
{ printf 'y'; cat in; } >want
cmp -s out want || fail "the second run wrote something else"

# a read that fails is the program's to tell: its words and its status come through, and nothing of the launcher's
"$run" copy y <. >out 2>said
[ $? -eq 1 ] || fail "a program that cannot read a folder did not end with its own status"
[ "$(cat out)" = y ] || fail "what a program wrote before its read failed is lost"
[ "$(grep -c . said)" -eq 1 ] && grep -q '^Error: .*IsADirectory' said || fail "a program that cannot read a folder is told otherwise: $(cat said)"

# a changed source is built again, and one that is not proved is not run
echo 'fn add(a: u8) -> u8 { a + 1 }' >>"$room/shelf/crates/copy/src/main.rt"
"$run" copy z <in >out 2>said && fail "an unproved program was run"
[ -s out ] && fail "an unproved program wrote to standard output"
exit $bad
