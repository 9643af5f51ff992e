#!/usr/bin/env bash
# Starts a board on its console: board/run.sh [mps2|virt|linux [FIRMWARE]]; where no firmware is given it is the one that make
# wrote here, in a release, or that board/build.sh built.
set -euo pipefail
here=$(dirname "$0") chip=${1:-mps2}
firmware=$here/$chip.elf
[ -f "$firmware" ] || firmware=$here/../target/board/$chip.elf
firmware=${2:-$firmware}
[ -f "$firmware" ] || { echo "$firmware is not there: build it first (make $chip, or board/build.sh $chip)" >&2 && exit 2; }
console="-display none -monitor none -serial stdio"
case $chip in
mps2) exec qemu-system-arm -M mps2-an386 $console -semihosting-config enable=on,target=native -kernel "$firmware" ;;
virt) exec qemu-system-riscv32 -M virt -bios none $console -kernel "$firmware" ;;
linux) exec "$firmware" ;;
*) echo "no such chip: $chip (mps2, virt, linux)" >&2 && exit 2 ;;
esac
