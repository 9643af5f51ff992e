# Shell functions to build what rt compiles without proving it again, for any POSIX shell: sourced in the root of the repository, by
# hitch, c/ and compare/'s scripts, and for the toolchain's place by jobs/run_program.sh.
# The kit and the programs that it compiles are for Linux on x86-64. On another machine they run under Debian's qemu-user.
kit=$(dirname "$(rt doc)")
tools=$kit/toolchain
clang=$tools/bin/clang
emulator=
[ "$(uname -m)" = x86_64 ] || emulator=qemu-x86_64

# A kit like the one that is installed, whose clang keeps the module that rt lib or rt try gives it. rt try then goes no further: it
# would compile that module and run it. rt finds its kit by where its own file lies, so that file is a copy.
keeping_kit() ( # FOLDER MODULE
    mkdir -p "$1/bin" "$1/toolchain/bin"
    for part in "$kit"/*; do
        case $(basename "$part") in bin | toolchain) ;; *) ln -s "$part" "$1/" ;; esac
    done
    for tool in "$kit/bin"/*; do ln -s "$tool" "$1/bin/"; done
    rm "$1/bin/rt" "$1/bin/rtlib.py"
    cp "$kit/bin/rt" "$kit/bin/rtlib.py" "$1/bin/"
    ln -s "$tools/lib" "$1/toolchain/lib"
    for tool in "$tools/bin"/*; do ln -s "$tool" "$1/toolchain/bin/"; done
    rm "$1/toolchain/bin/clang"
    cat >"$1/toolchain/bin/clang" <<C
#!/bin/sh
case " \$* " in
*" -O3 "*) cp module.bc "$2" ;;
*" -fsanitize=address "*) cp module.bc "$2" && exit 1 ;;
esac
exec "$clang" "\$@"
C
    chmod +x "$1/toolchain/bin/clang"
)

# The text of the LLVM module that the toolchain makes of a program, without the checks of rt try; and one that traps instead.
# Nothing is proved by it.
module() ( # REPOSITORY PROGRAM TEXT [TRAPPING]
    made=$(mktemp -d)
    trap 'rm -rf "$made"' EXIT
    keeping_kit "$made/kit" "$made/module.bc"
    (cd "$1/crates/$2" && "$made/kit/bin/rt" try </dev/null) >"$made/log" 2>&1 || true
    [ -f "$made/module.bc" ] || { cat "$made/log" >&2; exit 1; }
    module_text "$made/module.bc" >"$made/module.ll" && python3 compare/unchecked.py "$made/module.ll" "$3" ${4:+"$4"}
)

# A program, compiled as rt compiles it but unproved, and linked as rt links it, with the kit's C code.
unproved_program() ( # REPOSITORY PROGRAM OUT
    module "$1" "$2" "$3.ll" && "$clang" --target=x86_64-unknown-linux-gnu --no-default-config -fPIE -ffunction-sections \
        -fdata-sections -O3 -c -x ir "$3.ll" -o "$3.o" || exit 1
    said=$("$kit/bin/rattle-link" --target x86_64-unknown-linux-gnu --toolchain "$tools" -o "$3" "$3.o" \
        "$kit/c/libos_c.a" "$kit/c/liblibc_c.a" 2>&1) || { echo "$said" >&2; exit 1; }
)

# Proves, builds and links a program: crates/NAME/out/NAME. rt then runs it, on nothing, and how that ends is no matter.
proved_program() ( # PROGRAM
    said=$(mktemp)
    trap 'rm -f "$said"' EXIT
    (cd "crates/$1" && rt run </dev/null) >"$said" 2>&1 || true
    grep -q "^rt: running out/$1;" "$said" || { cat "$said" >&2; exit 1; }
)

# A module's text.
module_text() { # MODULE
    "$clang" --target=x86_64-unknown-linux-gnu --no-default-config -S -emit-llvm -Xclang -disable-llvm-passes -x ir "$1" -o -
}

# An object for this machine, of a module's text.
object() ( # TEXT OBJECT FLAGS
    text=$1 made=$2
    shift 2
    for_machine "$text" "$text.here"
    "$clang" --no-default-config -fPIE "$@" -c -x ir "$text.here" -o "$made"
)

# The text of a module with the names of another machine taken out, for this machine or for the one that clang's flags name.
for_machine() ( # TEXT OUT FLAGS
    text=$1 made=$2
    shift 2
    echo 'int x;' | "$clang" --no-default-config "$@" -S -emit-llvm -x c - -o - | grep '^target' >"$made"
    sed -e '/^target /d' -e 's/"\(target-cpu\|target-features\|tune-cpu\|frame-pointer\)"="[^"]*"//g' "$text" >>"$made"
)

# A C compiler for x86-64; installed where it is missing.
x86_64_cc() {
    if [ "$(uname -m)" = x86_64 ]; then
        cc "$@"
    else
        command -v x86_64-linux-gnu-gcc >/dev/null || installed gcc-x86-64-linux-gnu libc6-dev-amd64-cross
        x86_64-linux-gnu-gcc -static "$@"
    fi
}

installed() { # PACKAGES
    { apt-get update && apt-get install -y --no-install-recommends "$@"; } >&2
}
