#!/usr/bin/env bash
# Prints tables.h: the old program of board/old.asm, assembled, and the readings of jobs/pulled-card.scans.
#   [PROVED=1] board/tables.sh
set -euo pipefail
cd "$(dirname "$0")/.."
made=$(mktemp -d)
trap 'rm -rf "$made"' EXIT
how=--unproved
[ -z "${PROVED:-}" ] || how=
./hitch asm $how board/old.asm >"$made/section" 2>"$made/said" || { cat "$made/said" >&2; exit 1; }
python3 board/make_tables.py "$made/section" jobs/pulled-card.scans
