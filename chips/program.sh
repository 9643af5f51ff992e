#!/usr/bin/env bash
# Links a test program in C with a chip's library, target/chips/TARGET/libhitchbriar.a: chips/program.sh TARGET SOURCE OUT [FLAGS]
set -euo pipefail
cd "$(dirname "$0")/.."
. chips/targets.sh
target "$1"
flags="-std=c11 -O2 -Wall -Wextra -Werror -Ic -I$(made_in) ${*:4}"
if [ "$bare" = 1 ]; then # nothing of a C library is linked: chips/bare has the little that is needed
    flags+=" -ffreestanding -fno-builtin -fno-tree-loop-distribute-patterns -ffunction-sections -fdata-sections -static"
    flags+=" -nostdlib -nostdinc -isystem chips/bare/include -Wl,--gc-sections -Wl,-z,noexecstack -Wl,--no-warn-rwx-segments"
    flags+=" -T chips/bare/$1.ld chips/bare/start.c chips/bare/io.c chips/bare/memory.c"
fi
$linker $flags "$2" "target/chips/$1/libhitchbriar.a" $([ "$bare" = 0 ] || echo -lgcc) -o "$3"
