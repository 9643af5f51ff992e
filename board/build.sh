#!/usr/bin/env bash
# Builds the board's firmware with the library for its chip: target/board/CHIP.elf.
#   [PROVED=1] board/build.sh [mps2|virt|linux]
set -euo pipefail
cd "$(dirname "$0")/.."
chip=${1:-mps2} out=target/board
case $chip in
mps2) target=cortex-m4 ;;
virt) target=riscv32imc ;;
linux) target=$(uname -m | tr _ -) ;;
*) echo "no such chip: $chip (mps2, virt, linux)" >&2 && exit 2 ;;
esac
mkdir -p "$out"
chips/library.sh "$target"
board/tables.sh >"$out/tables.h"
make --no-print-directory -s -C board "$chip" library=../target/chips header=../c bare=../chips/bare tables="../$out" out="../$out"
