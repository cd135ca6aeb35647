# What the scripts here share: the targets, and how tools are found. Sourced, with the folder above in $top.
targets="cortex-m3 cortex-m4 cortex-m33 cortex-m0plus riscv32imafc"

# Sets, for TARGET: llvm, the words for clang; gcc, those for arm-none-eabi-gcc; board, that of qemu-system-arm.
choose() { # TARGET
    board='' gcc=''
    case $1 in
    cortex-m3)
        llvm="--target=thumbv7m-none-eabi -mcpu=cortex-m3 -mfloat-abi=soft"
        gcc="-mcpu=cortex-m3 -mthumb -mfloat-abi=soft" board=mps2-an385 ;;
    cortex-m4)
        llvm="--target=thumbv7em-none-eabihf -mcpu=cortex-m4 -mfpu=fpv4-sp-d16 -mfloat-abi=hard"
        gcc="-mcpu=cortex-m4 -mthumb -mfpu=fpv4-sp-d16 -mfloat-abi=hard" board=mps2-an386 ;;
    cortex-m33)
        llvm="--target=thumbv8m.main-none-eabihf -mcpu=cortex-m33 -mfpu=fpv5-sp-d16 -mfloat-abi=hard" ;;
    cortex-m0plus)
        llvm="--target=thumbv6m-none-eabi -mcpu=cortex-m0plus -mfloat-abi=soft" ;;
    riscv32imafc)
        llvm="--target=riscv32-unknown-elf -march=rv32imafc -mabi=ilp32f" ;;
    *)
        echo "usage: $0 TARGET, one of: $targets" >&2
        exit 2 ;;
    esac
}

need() { # PROGRAM PACKAGE
    command -v "$1" >/dev/null || { echo "$0: $1 is missing (Debian package $2)" >&2; exit 2; }
}

# Sets kit, the folder of the Rattle toolchain.
find_kit() {
    command -v rt >/dev/null || { echo "$0: rt is missing (the Rattle toolchain)" >&2; exit 2; }
    kit=$(cd "$(dirname "$(readlink -f "$(command -v rt)")")/.." && pwd -P)
}
