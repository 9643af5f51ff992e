#!/usr/bin/env bash
# Makes dist/: what a shop takes away to put the old program on a new chip. ./hitch release runs it.
#   chips/release.sh               of what is proved alone; proves first what is not proved yet
#   UNPROVED=1 chips/release.sh    of what rt try compiles, in minutes; the folder says so
# The same commit and kit give the same bytes: nothing in dist/ tells a time or a place.
set -euo pipefail
cd "$(dirname "$0")/.."
. compare/toolchain.sh
out=dist
# Every program but those that are tests.
programs=$(for main in crates/*/src/main.rt; do basename "${main%/src/main.rt}"; done | grep -vx 'alltexts\|speed\|vectors')
if [ -n "${UNPROVED:-}" ]; then
    unset PROVED
    kind="NOT PROVED: made of what rt try compiles, for trials alone."
else
    export PROVED=1
    kind="Made of what rt compiled once all was proved."
fi
rm -rf "$out" target/chips # nothing of an earlier tree
mkdir -p "$out/include" "$out/wasm" "$out/bin/x86-64-linux" "$out/board"

libraries() {
    local name
    for name in cortex-m4 riscv32imc aarch64 x86-64 wasm32; do
        chips/library.sh "$name"
        [ "$name" = wasm32 ] || install -D -m 644 "target/chips/$name/libhitchbriar.a" "$out/lib/$name/libhitchbriar.a"
    done
    # For x86-64 rt's own archive, with the words in it.
    if [ -n "${PROVED:-}" ]; then
        install -m 644 target/library/proved/libhitchbriar.a "$out/lib/x86-64/libhitchbriar.a"
        "$tools/bin/llvm-ar" rcsD "$out/lib/x86-64/libhitchbriar.a" target/chips/x86-64/words.o
    fi
    install -m 644 target/chips/wasm32/hitchbriar.wasm "$out/wasm/"
    install -m 644 c/hitchbriar.h "$out/include/"
    install -D -m 644 -t "$out/examples" c/{example,text,shop}.{c,out}
    install -m 644 docs/CHIPS.md "$out/"
}

# The programs, for x86-64 Linux.
built_programs() {
    local name
    if [ -n "${PROVED:-}" ]; then
        for name in $programs; do
            proved_program "$name"
            install "crates/$name/out/$name" "$out/bin/x86-64-linux/"
        done
    else
        for name in $programs; do
            unproved_program . "$name" "$PWD/target/library/$name" 2>target/library/said || { cat target/library/said >&2; return 1; }
            install "target/library/$name" "$out/bin/x86-64-linux/"
        done
    fi
}

# The board's source, which builds from dist/ without the kit.
board() {
    install -m 644 board/Makefile board/README.md board/*.c board/*.h board/*.ld board/*.py board/old.asm board/story.* \
        jobs/pulled-card.scans chips/bare/memory.c "$out/board/"
    install -m 755 board/run.sh "$out/board/"
    install -D -m 644 -t "$out/board/include" chips/bare/include/{stddef,stdint,string}.h
    board/tables.sh >"$out/board/tables.h"
}

# The desk, a page with the library inside.
desk() {
    python3 desk/build.py --module "$out/wasm/hitchbriar.wasm" ${PROVED:+--proved} --out "$out/desk.html"
}

readme() {
    echo "Hitchbriar $(cat VERSION), commit $(git describe --always --dirty --exclude '*' --abbrev=12)"
    echo "Kit: $(rt version)"
    echo "$kind"
    echo
    cat chips/RELEASE.txt
}

libraries
built_programs
board
[ ! -f desk/build.py ] || desk
readme >"$out/README.txt"
(cd "$out" && find . -type f ! -name SHA256SUMS | LC_ALL=C sort | xargs sha256sum >SHA256SUMS)
echo "$out: $(find "$out" -type f | wc -l) files, $(du -sk "$out" | cut -f1)K"
