#!/bin/sh
# Runs a program as rt runs it: under the toolchain's loader and C library, and under an emulator where this machine is not
# x86-64. Build it first: rt run in its folder
#   jobs/run_program.sh PROGRAM [WORDS]          such as crates/bench/out/bench
set -eu
. "$(dirname "$0")/../compare/toolchain.sh"
exec ${emulator:+"$emulator"} "$tools/lib/ld-linux-x86-64.so.2" --library-path "$tools/lib" "$@"
