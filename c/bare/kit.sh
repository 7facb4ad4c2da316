# shellcheck shell=bash disable=SC2034,SC2154
# C programs for the processor `target` in place of c/kit.sh's, with the small C library that stands here: the kit has none for it.
# Sourced from the root of the repository, after c/kit.sh, c/targets.sh and `choose_target "$target"`.

library=target/archive/$target/libghixramel.a
bare=target/archive/$target/bare

case $system in
linux) launch=(${emulator:+"$emulator"}) link=("$tools/bin/ld.lld" -static) ;;
board) launch=(c/bare/on-board "$board") link=("$tools/bin/ld.lld" -static -L c/bare -T "$board.ld") ;;
# the compiler is its own linker for WebAssembly, by this name; rt ci takes no link in a checkout
wasm) launch=(node c/bare/on-node.mjs) link=(bash -c 'exec -a wasm-ld "$0" "$@"' "$tools/bin/clang" --no-entry --export-memory -z stack-size=1048576) ;;
esac

# the library, proved and compiled as far as it is not there, and what a program is linked with besides
need_library() {
    local name
    tools/archive "$target" >/dev/null && mkdir -p "$bare" || return 1
    # a loop that copies must not become a call of the copying function
    for name in library arithmetic "$system"; do
        compile_c "$bare/$name.o" "c/bare/$name.c" -fno-builtin || return 1
    done
}

compile_c() { # OBJECT SOURCE OPTIONS..
    local object=$1 source=$2
    shift 2
    "$tools/bin/clang" --no-default-config "${options[@]}" -std=c11 -O2 -nostdinc -fno-builtin-printf -ffunction-sections -Wall -Wextra -Werror \
        -I c/include -I include -I c "$@" -c "$source" -o "$object"
}

link_c() { # PROGRAM OBJECTS AND ARCHIVES..
    local program=$1
    shift
    "${link[@]}" --gc-sections -o "$program" "$@" "$bare"/*.o
}
