#!/usr/bin/env bash
# Runs a board under its emulator: the story of the pulled card, with its table beside that of hitch record; noise over the old
# program, at which it locks and the watchdog stays quiet; that the watchdog is alive; and a terminal's lines.
#   [PROVED=1] board/test.sh [mps2|virt|linux [FIRMWARE]]
# Without FIRMWARE it is built first.
set -euo pipefail
cd "$(dirname "$0")/.."
chip=${1:-mps2} firmware=${2:-target/board/${1:-mps2}.elf} out=target/board/told
[ $# -gt 1 ] || board/build.sh "$chip"
mkdir -p "$out"

# What the board says on its console, and the status that it ends with.
said() { # STATUS NAME
    local status=0
    timeout 60 board/run.sh "$chip" "$firmware" >"$out/$chip.$2" || status=$?
    [ "$status" = "$1" ] || { echo "$chip $2: status $status, it should be $1" && cat "$out/$chip.$2" && exit 1; }
}

said 0 story <board/story.txt
diff board/story.out "$out/$chip.story"
table='/^channel/,/^ *15 /p'
sed -n "$table" "$out/$chip.story" | diff <(sed -n "$table" jobs/pulled-card.table) -
echo "$chip: the story ok"

printf '%s\n' hold 'wait 2' scramble 'wait 30' state end | said 0 scramble
grep -q '^locked until it is powered up again;' "$out/$chip.scramble"
! grep -q watchdog "$out/$chip.scramble"
echo "$chip: noise over the old program ok"

printf '%s\n' 'wait 2' hang | said 2 hang
grep -qx 'the watchdog bites' "$out/$chip.hang"
echo "$chip: the watchdog ok"

printf '%s\r' hold 'pull card' '' end | said 0 terminal
printf '%s\n' 'the board is up' hold 'pull card' 'no such card: card' '' end | diff - "$out/$chip.terminal"
echo "$chip: a terminal's lines ok"
