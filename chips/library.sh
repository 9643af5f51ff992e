#!/usr/bin/env bash
# Builds the library for a chip: target/chips/TARGET/libhitchbriar.a, all functions of c/hitchbriar.h in it. For wasm32 also
# target/chips/wasm32/hitchbriar.wasm, which has nothing to import.
#   [PROVED=1] chips/library.sh TARGET [OPTIMIZATION [AS]]
# TARGET: cortex-m4, riscv32imc, aarch64, wasm32 or x86-64 (chips/targets.sh). With PROVED=1 it is made of the module that rt lib
# compiles once all is proved; else of the module that rt try makes, which proves nothing and takes seconds.
# OPTIMIZATION is -Oz, -Os, -O2, -O3, or fast: -O2 with most of the step inlined into the run. With AS x86 the module is
# optimized as for the x86 with pointers of the same width, where 16 bits are a width of the machine, and then compiled for the
# target; with AS own all is done as for the target. Without them it is what is best for the target.
set -euo pipefail
cd "$(dirname "$0")/.."
. compare/toolchain.sh
. chips/module.sh
. chips/targets.sh
target "${1:?TARGET is one of $all_targets}"
read -r best as_best <<<"$how"
optimization=${2:-$best} as=${3:-$as_best} inlining=
[ "$optimization" != fast ] || { optimization=-O2 inlining="-mllvm -inline-threshold=3000"; }
out=target/chips/$1 from=$(made_in)
mkdir -p "$out"
if [ -n "${PROVED:-}" ]; then proved_module "$from"; else tried_module "$from"; fi
python3 chips/check.py "$from/module.ll"
flags="--no-default-config $words -ffreestanding -ffunction-sections -fdata-sections -fstack-usage $optimization"

# Objects tell the names of their sources, without the folders, so that they are the same wherever they are made.
compiled() { # FLAGS
    [ -z "$attribute" ] || echo "module asm \"$attribute\"" >>"$out/module.ll"
    (cd "$out" && "$clang" $flags "$@" -c -x ir module.ll -o module.o)
}

if [ "$as" = x86 ]; then
    retargeted "$from/module.ll" "$out/x86.ll" "$optimization" $wide
    "$clang" --no-default-config $wide -ffreestanding $optimization -fno-vectorize -fno-slp-vectorize $inlining -S -emit-llvm \
        -x ir "$out/x86.ll" -o "$out/optimized.ll"
    retargeted "$out/optimized.ll" "$out/module.ll" -O2 $words
    compiled -Xclang -disable-llvm-passes
else
    # Registers that are packed into a vector cost each step more than they save (docs/SPEED.md).
    retargeted "$from/module.ll" "$out/module.ll" "$optimization" $words
    compiled -fno-slp-vectorize $inlining
fi

# One module of WebAssembly, with the memory functions that the library calls, and a stack for the deepest of its functions.
wasm_module() {
    local exports
    exports=$(python3 -c 'import json, sys; print(*("--export=" + name for name in json.load(open(sys.argv[1]))))' "$from/calls.json")
    in_c chips/bare/memory.c memory.o -fno-builtin
    # The linker goes by the name that it is called by; no link is left in the checkout, as rt ci wants it.
    (exec -a wasm-ld "$tools/bin/ld.lld" --no-entry $exports --export=wd16_refusal_words --export=wd16_cause_words --export=wd16_mode_words \
        --export=__heap_base --strip-all -z stack-size=262144 --initial-memory=1048576 "$out/libhitchbriar.a" "$out/memory.o" \
        -o "$out/hitchbriar.wasm")
}

# The functions' own names over the module, and the words. The kit's clang has no headers: those in chips/bare do.
in_c() { # SOURCE OBJECT FLAGS
    echo "${attribute:+__asm__(\"$attribute\");}" >"$out/attribute.h"
    "$clang" $flags -std=c11 -Wall -Wextra -Werror -Wmissing-prototypes -nostdinc -isystem chips/bare/include -Ic \
        -include "$out/attribute.h" -ffile-prefix-map="$PWD"=. "${@:3}" -c "$1" -o "$out/$2"
}
in_c "$from/$(basename "$from").c" exports.o
in_c c/words.c words.o
rm -f "$out/libhitchbriar.a"
"$tools/bin/llvm-ar" rcsD "$out/libhitchbriar.a" "$out/module.o" "$out/exports.o" "$out/words.o"
[ "$1" != wasm32 ] || wasm_module
