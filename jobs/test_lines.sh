#!/usr/bin/env bash
# Holds each sample's stored line, its trace where it has one, and each stored listing, to what the plain interpreter makes of its
# job. Build that first: cargo build --release in compare. The job's bytes are hitch's, its assembler not proved here.
set -euo pipefail
cd "$(dirname "$0")/.."
made=$(mktemp -d)
trap 'rm -rf "$made"' EXIT
hex() { od -An -v -tx1 | tr -d ' \n' | tr a-f A-F; }
job() { # NAME: its bytes, in $made/NAME
    [ -f "$made/$1" ] || ./hitch job --unproved "jobs/$1.txt" >"$made/$1" 2>"$made/said" || { cat "$made/said"; exit 1; }
}
accepted() { # NAME
    local found
    found=$(echo "trace 14 $(hex <"$made/$1") $(hex <"jobs/$1.trace")" | compare/target/release/answer plain)
    [ "$found" = ACCEPTED ] || { echo "$1.trace: the plain interpreter says $found"; exit 1; }
}
for text in jobs/*.txt; do
    # A job with a board of its own is none for bench.
    ! grep -Eq '^(microm|jumpers|external) ' "$text" || continue
    name=$(basename "$text" .txt)
    job "$name"
    got=$(compare/target/release/bench <"$made/$name")
    if [ "$got" != "$(cat "jobs/$name.line")" ]; then
        echo "$name: the plain interpreter prints $got"
        exit 1
    fi
    [ ! -f "jobs/$name.trace" ] || accepted "$name"
    echo "$name ok"
done
# NAME.FIRST-LAST.list
for listing in jobs/*.list; do
    name=$(basename "$listing" .list)
    ! grep -Eq '^(microm|jumpers|external) ' "jobs/${name%.*}.txt" || continue
    stretch=$(python3 -c 'import sys
first, last = sys.argv[1].split("-")
sys.stdout.write("".join(f"\\x{address[2:]}\\x{address[:2]}" for address in (first, last)))' "${name##*.}")
    job "${name%.*}"
    got=$({ printf "$stretch"; cat "$made/${name%.*}"; } | compare/target/release/list)
    if [ "$got" != "$(cat "$listing")" ]; then
        echo "$name: the plain interpreter prints $got"
        exit 1
    fi
    echo "$name ok"
done
