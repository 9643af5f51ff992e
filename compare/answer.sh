#!/usr/bin/env bash
# Reads case lines (compare/README.md) on standard input and prints an answer to each, BAD where there is none.
#   compare/answer.sh          from the proved code: its functions for C, and its programs
#   compare/answer.sh plain    from the plain interpreter
# The code is compiled as the gate's tests compile it (c/build.sh), unless that was done since a source was changed.
set -euo pipefail
cd "$(dirname "$0")/.."
cargo build --release --offline --quiet --manifest-path compare/Cargo.toml </dev/null
answer=compare/target/release/answer
[ "${1:-}" != plain ] || exec "$answer" plain
stamp=$(cat crates.txt c/*.c c/*.h c/*.py c/build.sh crates/*/src/*.rt | sha256sum)
if [ "$stamp" != "$(cat target/c/stamp 2>/dev/null)" ]; then
    c/build.sh </dev/null >&2
    echo "$stamp" >target/c/stamp
fi
exec "$answer" served target/c/serve target/c/bench target/c/list
