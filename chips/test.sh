#!/usr/bin/env bash
# Tests the library of a chip under its emulator: the examples in C, and random calls through c/serve.c beside the plain
# interpreter (build it first: cargo build --release --offline in compare).
#   [PROVED=1] chips/test.sh TARGET [SEED [CASES [OPTIMIZATION [AS]]]]
# As c/test.sh: CASES of the processor and of the text, a tenth of runs for boards, of texts and of patches, a twentieth of scans
# and traces. With fewer than 40,000 it is no failure where something was not reached, but it is told. OPTIMIZATION and AS are
# those of chips/library.sh.
set -euo pipefail
cd "$(dirname "$0")/.."
. chips/targets.sh
name=${1:?TARGET is one of $all_targets}
target "$name"
seed=${2:-$(date +%s)} cases=${3:-40000} out=target/chips/$name
chips/library.sh "$name" "${@:4}"

# In WebAssembly there are the calls alone: chips/serve.mjs does what c/serve.c does.
if [ "$name" = wasm32 ]; then
    command="node chips/serve.mjs $out/hitchbriar.wasm $(made_in)/calls.json"
else
    for example in example text shop lengths; do
        chips/program.sh "$name" "c/$example.c" "$out/$example"
        $emulator "$out/$example" 2>/dev/null | diff "c/$example.out" -
        echo "$name $example ok"
    done
    chips/program.sh "$name" c/serve.c "$out/serve"
    command="$emulator $out/serve"
fi

compared() { # KIND CASES
    local said=$out/$1.said reached=
    if ! compare/target/release/difftest "$1" "$command" "$seed" "$2" >"$said" 2>&1; then
        { [ "$cases" -lt 40000 ] && grep -q '^0 differences' "$said"; } || { cat "$said"; return 1; }
        reached="; some not reached"
    fi
    echo "$name $1: $(head -1 "$said"), $(grep '^0 differences' "$said")$reached$(sed -n 's/^stack/; stack/p' "$said")"
}

compared served "$cases"
compared calls "$cases"
compared boards "$((cases / 10))"
compared text "$((cases / 10))"
compared asm "$((cases / 10))"
compared scans "$((cases / 20))"
compared trace "$((cases / 20))"
