#!/usr/bin/env bash
# Counts the instructions a step of the speed program and of the plain interpreter, both compiled for x86-64, and prints their
# ratio. A count repeats where a time doesn't, on a machine that is not quiet.
#   compare/instructions.sh [OURS]       OURS: a speed program such as crates/speed/out/speed; else what rt try compiles, unproved
# On x86-64 it counts by valgrind, elsewhere by qemu-x86_64. There is no Rust library for x86-64 there: plain Rust is then
# the module that rustc makes of the library, optimized by the toolchain's clang at -O3 and called by lent.c, linked with a C
# compiler for x86-64 that is installed by apt-get if there is none.
set -euo pipefail
cd "$(dirname "$0")/.."
work=$(mktemp -d)
trap 'rm -rf "$work"' EXIT
. compare/toolchain.sh
x86_64="--target=x86_64-unknown-linux-gnu -march=x86-64 --no-default-config"

# The name that rustc gave a function of abi.rs.
symbol() { # MODULE FUNCTION
    sed -n "s/^define .*@\(_ZN4wd163abi${#2}$2[0-9a-zE]*\)(.*/\1/p" "$1"
}

plain_for_x86_64() { # PROGRAM
    local text
    (cd compare && cargo rustc --release --offline --quiet --lib --target-dir "$work/plain" -- --emit=llvm-ir -C no-prepopulate-passes -C lto=off)
    text=$(echo "$work"/plain/release/deps/wd16-*.ll)
    for_machine "$text" "$work/plain.ll" $x86_64
    "$clang" $x86_64 -fPIE -O3 -ffunction-sections -c -x ir "$work/plain.ll" -o "$work/plain.o"
    x86_64_cc -O2 -DENDED="$(symbol "$text" ended)" compare/lent.c "$work/plain.o" \
        -Wl,--gc-sections -Wl,--unresolved-symbols=ignore-all -o "$1"
}

ours=${1:-}
if [ -z "$ours" ]; then
    ours=$work/ours
    unproved_program . speed "$ours"
fi
if [ "$(uname -m)" = x86_64 ]; then
    command -v valgrind >/dev/null || { echo "valgrind is needed: apt-get install valgrind" >&2; exit 2; }
    (cd compare && cargo build --release --offline --quiet)
    python3 compare/instructions.py valgrind "$ours" compare/target/release/speed
else
    plain_for_x86_64 "$work/lent"
    python3 compare/instructions.py "$emulator" "$tools/lib/ld-linux-x86-64.so.2 --library-path $tools/lib $ours" "$work/lent"
fi
