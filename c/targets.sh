# shellcheck shell=bash disable=SC2034
# The processors besides x86-64 that the proved module is compiled for; sourced from the root of the repository.

list_targets() {
    cat <<'LIST'
aarch64      Arm, 64 bits: Cortex-A under Linux
armv7        Arm, 32 bits: Cortex-A under Linux
riscv32      RISC-V, 32 bits: controllers with rv32imac
riscv64      RISC-V, 64 bits: rv64gc under Linux
thumbv6m     Arm controllers: Cortex-M0, M0+ and M1
thumbv7m     Arm controllers: Cortex-M3
thumbv7em    Arm controllers: Cortex-M4 and M7
thumbv7emhf  the same for firmware with -mfloat-abi=hard, whose linker takes no other object
thumbv8m     Arm controllers: Cortex-M33
wasm32       WebAssembly
LIST
}

# sets options, those of the compiler; optimize, that of the library; system and board, what a test program runs on; emulator, the
# command that it needs here: none where the processor is the machine's own
choose_target() { # TARGET
    # so that a controller that traps on a word at an odd address (CCR.UNALIGN_TRP) never does
    local strict=-mno-unaligned-access
    optimize=-Os system=board board='' emulator=qemu-system-arm
    case $1 in
    aarch64) options=(--target=aarch64-unknown-linux-gnu -fPIC) optimize=-O3 system=linux emulator=qemu-aarch64 ;;
    armv7) options=(--target=armv7-unknown-linux-gnueabihf -fPIC) optimize=-O3 system=linux emulator=qemu-arm ;;
    riscv32) options=(--target=riscv32-unknown-elf -march=rv32imac -mabi=ilp32) system=linux emulator=qemu-riscv32 ;;
    riscv64) options=(--target=riscv64-unknown-linux-gnu -march=rv64gc -mabi=lp64d -fPIC) optimize=-O3 system=linux emulator=qemu-riscv64 ;;
    thumbv6m) options=(--target=thumbv6m-none-eabi -mcpu=cortex-m0 -mfloat-abi=soft) board=mps2-an385 ;;
    thumbv7m) options=(--target=thumbv7m-none-eabi -mcpu=cortex-m3 -mfloat-abi=soft "$strict") board=mps2-an385 ;;
    thumbv7em) options=(--target=thumbv7em-none-eabi -mcpu=cortex-m4 -mfloat-abi=soft "$strict") board=mps2-an386 ;;
    thumbv7emhf) options=(--target=thumbv7em-none-eabihf -mcpu=cortex-m4 -mfpu=fpv4-sp-d16 -mfloat-abi=hard "$strict") board=mps2-an386 ;;
    thumbv8m) options=(--target=thumbv8m.main-none-eabi -mcpu=cortex-m33 -mfloat-abi=soft "$strict") board=mps2-an505 ;;
    wasm32) options=(--target=wasm32-unknown-unknown) system=wasm emulator=node ;;
    *) return 1 ;;
    esac
    [ "$1" != "$(uname -m)" ] || emulator=
}

# whether programs for the target run on this machine
runs_here() { # TARGET
    choose_target "$1" && { [ -z "$emulator" ] || command -v "$emulator" >/dev/null 2>&1; }
}
