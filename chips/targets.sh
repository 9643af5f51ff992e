# The chips that the library is made for. Sourced in the root of the repository.
all_targets="cortex-m4 riscv32imc aarch64 wasm32 x86-64"

# What a target needs:
#   words      clang's words for it
#   how        the optimization that is best for it, and as which machine (chips/library.sh tells what they mean)
#   wide       the x86 whose pointers are as wide
#   linker     a C compiler that links for it; binutils: the beginning of its tools' names
#   attribute  a line for the assembler in each object
#   bare       1 where there is no C library, and the test programs stand on chips/bare
#   emulator   runs its programs; packages: Debian's names of what that needs
target() { # NAME
    local quiet="-display none -serial none -monitor none -semihosting-config enable=on,target=native"
    local wide_32="--target=i586-unknown-linux-gnu -march=i586" wide_64="--target=x86_64-unknown-linux-gnu -march=x86-64"
    bare=0 attribute= emulator= binutils= packages= wide=$wide_32
    case $1 in
    cortex-m4)
        words="--target=thumbv7em-none-eabi -mcpu=cortex-m4 -mfloat-abi=soft -fshort-enums" how="fast own" bare=1
        # Tag_ABI_VFP_args: no floating-point number is passed, so that the objects link with either way of passing them.
        attribute=".eabi_attribute 28, 3"
        linker="arm-none-eabi-gcc -mcpu=cortex-m4 -mthumb" binutils=arm-none-eabi-
        emulator="qemu-system-arm -M mps2-an386 $quiet -kernel" packages="qemu-system-arm gcc-arm-none-eabi"
        ;;
    riscv32imc)
        words="--target=riscv32-unknown-elf -march=rv32imc -mabi=ilp32" how="fast x86" bare=1
        linker="riscv64-unknown-elf-gcc -march=rv32imac -mabi=ilp32" binutils=riscv64-unknown-elf-
        emulator="qemu-system-riscv32 -M virt -bios none $quiet -kernel" packages="qemu-system-misc gcc-riscv64-unknown-elf"
        ;;
    aarch64)
        words="--target=aarch64-linux-gnu -fPIE" how="-O3 x86" wide=$wide_64
        linker="aarch64-linux-gnu-gcc -static" binutils=aarch64-linux-gnu- emulator=qemu-aarch64
        packages="qemu-user gcc-aarch64-linux-gnu libc6-dev-arm64-cross"
        ;;
    x86-64)
        words="--target=x86_64-unknown-linux-gnu -fPIE" how="-O3 own" wide=$wide_64
        linker="x86_64-linux-gnu-gcc -static" binutils=x86_64-linux-gnu- emulator=qemu-x86_64
        packages="qemu-user gcc-x86-64-linux-gnu libc6-dev-amd64-cross"
        ;;
    wasm32)
        words="--target=wasm32-unknown-unknown" how="-O2 own" linker= emulator=node packages=nodejs
        ;;
    *)
        echo "no such target: $1 ($all_targets)" >&2
        return 1
        ;;
    esac
    # On a machine of its own kind nothing is emulated.
    [ "$1" != "$(uname -m | tr _ -)" ] || { linker=cc emulator= binutils= packages=; }
}

# A module's text for another machine: its triple and data layout, and no names of x86-64's processors. Addresses that are looked at
# have 64 bits there too. -Os and -Oz are no more than -O2 for a module, unless its functions ask for it.
retargeted() { # TEXT OUT OPTIMIZATION WORDS
    local ask=
    case $3 in -Os) ask=" optsize" ;; -Oz) ask=" minsize optsize" ;; esac
    echo 'int x;' | "$clang" --no-default-config "${@:4}" -S -emit-llvm -x c - -o - | grep '^target' >"$2"
    sed -e '/^target /d' -e 's/"\(target-cpu\|target-features\|tune-cpu\|probe-stack\|frame-pointer\)"="[^"]*"//g' \
        -e 's/ = ptrtoaddr ptr / = ptrtoint ptr /' -e "s/^\(attributes #0 = {\)/\1$ask/" "$1" >>"$2"
}

# The folder of the module: proved where PROVED is set, else tried.
made_in() {
    [ -n "${PROVED:-}" ] && echo target/library/proved || echo target/library/tried
}
