# shellcheck shell=bash
# C programs with the Rattle kit's compiler and C library, for x86-64; sourced from the root of the repository.

kit=$(dirname "$(rt doc </dev/null)")
tools=$kit/toolchain
library=target/staticlib/libghixramel.a

# "${launch[@]}" PROGRAM ARGUMENTS runs a program
launch=("$tools/lib/ld-linux-x86-64.so.2" --library-path "$tools/lib")

# the library that include/ghixramel.h describes, proved and built if it is not there or older than its sources
need_library() {
    tools/library
}

# a module as the compiler's text
text_of() { # MODULE
    "$tools/bin/clang" --no-default-config --target=x86_64-unknown-linux-gnu -S -emit-llvm -Xclang -disable-llvm-passes -x ir "$1" -o -
}

# the kit has no C headers: those of c/include stand in
compile_c() { # OBJECT SOURCE OPTIONS..
    local object=$1 source=$2
    shift 2
    "$tools/bin/clang" --target=x86_64-unknown-linux-gnu -std=c11 -O3 -fPIE -nostdinc -Wall -Wextra -Werror \
        -I c/include -I include -I c "$@" -c "$source" -o "$object"
}

link_c() { # PROGRAM OBJECTS AND ARCHIVES..
    local program=$1
    shift
    "$tools/bin/ld.lld" -pie -dynamic-linker /lib64/ld-linux-x86-64.so.2 -o "$program" \
        "$tools/lib/Scrt1.o" "$tools/lib/crti.o" "$tools/lib/crtbeginS.o" "$@" \
        "$tools/lib/libc.so.6" "$tools/lib/libc_nonshared.a" "$tools/lib/ld-linux-x86-64.so.2" "$tools/lib/crtendS.o" "$tools/lib/crtn.o"
}
