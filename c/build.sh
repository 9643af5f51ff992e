#!/usr/bin/env bash
# Builds the C examples, the server of calls, bench and list in target/c, for tests that run before the proof:
#   example, text, shop, lengths, serve, bench, list
#   example-asan, text-asan, shop-asan, lengths-asan, serve-asan       under the address sanitizer
# The library's code is the module that the toolchain makes of a program that calls the exported functions (rt try, which
# proves nothing), compiled for this machine. With an argument the library is that one instead, for x86-64:
# crates/hitchbriar/out/libhitchbriar.a, which rt lib proves and writes in that folder; then the sanitizer is left out where this
# machine is not x86-64.
#   c/build.sh [LIBRARY]
set -euo pipefail
cd "$(dirname "$0")/.."
. compare/toolchain.sh
. chips/module.sh
out=target/c from=target/library/tried
programs="example text shop lengths serve"
flags="-std=c11 -O2 -g -Wall -Wextra -Werror"
rm -rf "$out"
mkdir -p "$out"

unproved_library() {
    object "$from/module.ll" "$out/module.o" -O3
    cc $flags -Ic -Wmissing-prototypes -c "$from/tried.c" -o "$out/tried.o"
    "$tools/bin/llvm-ar" rcs "$out/libhitchbriar.a" "$out/module.o" "$out/tried.o"
}

# The library's own accesses are checked too, and it traps where it would go wrong.
sanitized_module() {
    sed -e 's/^\(attributes #[0-9]* = {\)/\1 sanitize_address/' "$from/trapping.ll" >"$out/sanitized.ll"
    object "$out/sanitized.ll" "$out/sanitized.o" -O1 -fsanitize=address
}

sanitized() { # FILES
    local name
    for name in $programs; do
        cc $flags -Ic -I"$from" -fsanitize=address -fno-sanitize-recover "c/$name.c" c/words.c "$@" -o "$out/$name-asan"
    done
}

tried_module "$from"
if [ $# -eq 0 ]; then
    unproved_library
    sanitized_module
    sanitized "$from/tried.c" "$out/sanitized.o"
    for name in $programs; do cc $flags -Ic -I"$from" "c/$name.c" c/words.c "$out/libhitchbriar.a" -o "$out/$name"; done
else
    for name in $programs; do x86_64_cc $flags -Ic -I"$from" "c/$name.c" c/words.c "$@" -o "$out/$name"; done
    [ "$(uname -m)" != x86_64 ] || sanitized "$@"
fi
for name in bench list; do
    unproved_program . "$name" "$out/$name"
done
