#!/usr/bin/env bash
# Builds the speed program and the plain interpreter, runs both by turns, and prints steps a second and their ratio.
#   compare/speed.sh [RUNS [TIMES]]      2000 runs of 4,096 steps each; the best of 5 times
# On x86-64 the program is the one that rt proves and links. On another machine that program would run under an emulator;
# there the module that the toolchain makes of it is optimized as for x86-64, and compiled for the machine.
set -euo pipefail
cd "$(dirname "$0")/.."
runs=${1:-2000} times=${2:-5}
work=$(mktemp -d)
trap 'rm -rf "$work"' EXIT
. compare/toolchain.sh

# The module is optimized as for x86-64: there 16 bits are a width of the machine.
native_program() {
    module . speed "$work/module.ll"
    "$clang" --target=x86_64-unknown-linux-gnu -march=x86-64 --no-default-config -fPIE -O3 -Xclang -fmerge-functions \
        -mllvm -mergefunc-use-aliases -S -emit-llvm -x ir "$work/module.ll" -o "$work/ours.ll"
    for_machine "$work/ours.ll" "$work/here.ll"
    "$clang" --no-default-config -fPIE -O3 -Xclang -disable-llvm-passes -c -x ir "$work/here.ll" -o "$work/ours.o"
    cc -pie "$work/ours.o" -o "$work/ours"
}

(cd compare && cargo build --release --offline --quiet)
if [ "$(uname -m)" = x86_64 ]; then
    proved_program speed
    cp crates/speed/out/speed "$work/ours"
else
    native_program
fi
python3 compare/speed.py "$runs" "$times" "$work/ours" compare/target/release/speed
