#!/usr/bin/env bash
# tools/archive and tools/retarget.py: what they make passes numbers as C on the target does, and they stop where they should.
# On a repository of its own, whose library has a number of each kind in each place.
set -u
cd "$(dirname "${BASH_SOURCE[0]}")/.." || exit 2
room=$(mktemp -d) || exit 2
trap 'rm -rf "$room"' EXIT
bad=0
fail() {
    echo "archive: $*"
    bad=1
}

python3 tests/retarget.py || bad=1

mkdir -p "$room/crates/ghixramel/src" "$room/crates/ghixramel_c/src" "$room/include"
cp -R tools c tests "$room"
printf '%s\n' 'ghixramel_c staticlib: ghixramel' 'ghixramel:' >"$room/crates.txt"
cat >"$room/crates/ghixramel/src/lib.rt" <<'RT'
// What the exports call.
#![tactic(auto)]

// A pair, in which the last byte is the second number.
#[derive(Clone, Copy)]
pub struct Last {
    pub refusal: u8,
    pub byte: u64,
}

pub fn find_last(bytes: &[u8]) -> Last {
    let count = bytes.len();
    if count == 0 {
        return Last {
            refusal: 1,
            byte: 0,
        };
    }
    Last {
        refusal: 0,
        byte: bytes[count - 1] as u64,
    }
}
RT
cat >"$room/crates/ghixramel_c/src/lib.rt" <<'RT'
// Numbers in each way that C passes them.
#![tactic(auto)]

#[unsafe(no_mangle)]
pub extern "C" fn ghixramel_low(number: u64) -> u32 {
    (number % 4294967296) as u32
}

#[unsafe(no_mangle)]
pub extern "C" fn ghixramel_wide(number: u32, wide: &mut [u64; 1]) -> u32 {
    wide[0] = number as u64;
    0
}

#[unsafe(no_mangle)]
pub extern "C" fn ghixramel_last(bytes: &[u8], last: &mut [u8; 1]) -> u32 {
    let found = ghixramel::find_last(bytes);
    if found.refusal == 0 {
        last[0] = (found.byte % 256) as u8;
    }
    found.refusal as u32
}
RT
cat >"$room/include/ghixramel.h" <<'C'
#include <stddef.h>
#include <stdint.h>

uint32_t ghixramel_low(uint64_t number);
uint32_t ghixramel_wide(uint32_t number, uint64_t wide[1]);
uint32_t ghixramel_last(const uint8_t *bytes, uint64_t count, uint8_t last[1]);
C
cp "$room/include/ghixramel.h" "$room/header"
cd "$room" || exit 2
. c/kit.sh
. c/targets.sh

# nothing is made, no archive is left of before, and the reason is told
want_refusal() { # TARGET REASON
    tools/archive "$1" >out 2>said && fail "$2: $1 was made"
    [ -s out ] && fail "$2: the archive's name was told"
    [ -e "target/archive/$1/libghixramel.a" ] && fail "$2: an archive for $1 stands"
    grep -q "$2" said || fail "$1 was refused for another reason than '$2': $(tail -n 3 said)"
}

# the C program on what stands in the target's folder
passes() { # TARGET OPTIONS..
    (
        target=$1
        shift
        choose_target "$target"
        . c/bare/kit.sh
        compile_c "${library%/*}/passed.o" tests/c/passed.c "$@" && link_c "${library%/*}/passed" "${library%/*}/passed.o" "$library" && "${launch[@]}" "${library%/*}/passed"
    ) >said 2>&1 </dev/null
}

# the code of riscv64's ghixramel_low fills the upper half of its result with the sign
fills_the_upper_half() { # MODULE
    choose_target riscv64
    "$tools/bin/clang" --no-default-config "${options[@]}" "$optimize" -S -x ir "$1" -o - | sed -n '/^ghixramel_low:/,/ret$/p' | grep -q 'sext\.w'
}

# riscv64's module, spoiled and compiled again, is told by the C program
want_told() { # MODULE WHAT
    choose_target riscv64
    "$tools/bin/clang" --no-default-config "${options[@]}" "$optimize" -c -x ir "$1" -o ghixramel.o && "$tools/bin/llvm-ar" rcsD spoiled.a ghixramel.o &&
        mv spoiled.a target/archive/riscv64/libghixramel.a || fail "$2 was not made"
    passes riscv64 && fail "$2 passes"
    grep -q '^passed: ' said || fail "$2 is told otherwise: $(cat said)"
}

for words in "" none "wasm32 riscv64"; do
    # shellcheck disable=SC2086
    tools/archive $words >out 2>said
    status=$?
    if [ $status -ne 2 ] || [ -s out ] || [ "$(grep -c . said)" -ne $((1 + $(list_targets | grep -c .))) ]; then fail "asked for '$words' it does not list the targets"; fi
done

# all else is about what is made of it
tools/library 2>said || { fail "the library was not made: $(tail -n 8 said)" && exit 1; }
for target in $(list_targets | cut -d ' ' -f 1); do
    made=$(tools/archive "$target" 2>said)
    if [ "$made" != "target/archive/$target/libghixramel.a" ] || [ ! -s "$made" ]; then fail "$target was not made: $(tail -n 3 said)"; fi
    if runs_here "$target"; then
        (. c/bare/kit.sh && need_library) || fail "$target: no C library"
        passes "$target" || fail "numbers are not passed as C on $target does: $(cat said)"
    else
        echo "archive: $target was made and not run: no $emulator here"
    fi
done
grep -q '^define noundef signext i32 @ghixramel_wide(i32 noundef signext %a0, ptr noundef %a1)' target/archive/riscv64/ghixramel.ll || fail "riscv64 has no sign in its upper half"
grep -qE '(sign|zero)ext i32' target/archive/{aarch64,thumbv7em,wasm32}/ghixramel.ll && fail "a target has an extension that C does not know there"

# each wrong extension is told: by the code itself, and by the C program where it can be run
sed '/^define.*ghixramel_low/s/signext //' target/archive/riscv64/ghixramel.ll >result.ll
sed '/^define.*ghixramel_wide/s/signext %a0/zeroext %a0/' target/archive/riscv64/ghixramel.ll >argument.ll
fills_the_upper_half target/archive/riscv64/ghixramel.ll || fail "riscv64 does not fill the upper half of a result"
fills_the_upper_half result.ll && fail "a result of 32 bits with anything above it is not told by its code"
if runs_here riscv64; then
    want_told result.ll "a result of 32 bits with anything above it"
    want_told argument.ll "an argument extended by zeros"
fi

# lengths of 32 bits where a pointer has as many
sed -i 's/uint64_t count/size_t count/' include/ghixramel.h
for target in armv7 riscv32 thumbv6m thumbv7em wasm32; do want_refusal "$target" 'ghixramel_last: the module has it as i32 ptr i64 ptr, C as i32 ptr i32 ptr'; done
tools/archive aarch64 >out 2>said || fail "where size_t has 64 bits it is the same"
sed '/ghixramel_wide/d' header >include/ghixramel.h
want_refusal wasm32 'not both declared and exported: ghixramel_wide'
sed 's/ghixramel_wide/ghixramel_wider/' header >include/ghixramel.h
want_refusal wasm32 'not both declared and exported: ghixramel_wide ghixramel_wider'
cp header include/ghixramel.h

# a module with a constant table, as a later compiler may hand one over, and one with a variable
tools/library
text_of target/staticlib/ghixramel.bc >module.ll
put_module() { # KIND_OF_TABLE
    {
        cat module.ll
        echo "@powers = private unnamed_addr $1 [4 x i32] [i32 1, i32 2, i32 4, i32 -2147483648], align 4"
        echo 'define noundef i32 @ghixramel_power(i64 noundef %a0) #0 {'
        echo '  %r0 = mul nuw i64 %a0, 4'
        echo '  %r1 = getelementptr i8, ptr @powers, i64 %r0'
        echo '  %r2 = load i32, ptr %r1, align 4, !noundef !1'
        echo '  ret i32 %r2'
        echo '}'
    } >with_table.ll
    "$tools/bin/clang" --no-default-config --target=x86_64-unknown-linux-gnu -c -emit-llvm -Xclang -disable-llvm-passes -x ir with_table.ll -o target/staticlib/ghixramel.bc || fail "no module"
}
echo 'uint32_t ghixramel_power(uint64_t place);' >>include/ghixramel.h
put_module constant
for target in $(list_targets | cut -d ' ' -f 1); do
    tools/archive "$target" >out 2>said || fail "a constant table was not taken along for $target: $(tail -n 3 said)"
    ! runs_here "$target" || passes "$target" -DWITH_TABLE || fail "a constant table is another on $target: $(cat said)"
done
put_module global
want_refusal wasm32 'has a form that is not known to mean the same on another processor: @powers'
cp header include/ghixramel.h

# what is not proved makes no archive, for no processor
cat >>crates/ghixramel_c/src/lib.rt <<'RT'

#[unsafe(no_mangle)]
pub extern "C" fn ghixramel_next(number: u32) -> u32 {
    number + 1
}
RT
echo 'uint32_t ghixramel_next(uint32_t number);' >>include/ghixramel.h
want_refusal wasm32 'it is not proved that the sum fits its type'
[ -e target/staticlib/libghixramel.a ] && fail "an unproved archive for x86-64 stands"
exit $bad
