#!/usr/bin/env bash
# Tests the C interface before the proof: the examples, plain and under the address sanitizer, and random calls through the
# library beside the plain interpreter (build it first: cargo build --release in compare).
#   c/test.sh [SEED [CASES [LIBRARY]]]          CASES is 20,000 at least
# The library's code is not proved here, or it is in LIBRARY, which was proved before (c/build.sh says more).
set -euo pipefail
cd "$(dirname "$0")/.."
. compare/toolchain.sh
seed=${1:-$(date +%s)} cases=${2:-40000}
# Of fewer cases some op code or addressing mode is reached by none, which counts as a failure.
least=20000
[ "$cases" -ge "$least" ] 2>/dev/null || { echo "c/test.sh: CASES is a number, $least at least: fewer don't reach every op code" >&2; exit 2; }
c/build.sh "${@:3}"
[ -n "${3:-}" ] || emulator=

example() { # NAME SUFFIX COMMAND
    "${@:3}" "target/c/$1$2" | diff "c/$1.out" -
    echo "$1$2 ok"
}

# Only the first line and the last ones of what is said, unless it goes wrong.
compared() { # KIND NAME SEED CASES COMMAND
    local said=target/c/$2.$1.said
    if compare/target/release/difftest "$1" "$5" "$3" "$4" >"$said" 2>&1; then
        echo "$2 $1: $(head -1 "$said"), $(tail -1 "$said")"
    else
        cat "$said"
        return 1
    fi
}

# The processor's calls, the text's and the boards' with every byte that is lent, and cases of texts, patches, scans and traces.
all_compared() { # NAME SEED COMMAND
    compared served "$1" "$2" "$cases" "$3"
    compared calls "$1" "$2" "$cases" "$3"
    compared boards "$1" "$2" "$((cases / 10))" "$3"
    compared text "$1" "$2" "$((cases / 10))" "$3"
    compared asm "$1" "$2" "$((cases / 10))" "$3"
    compared scans "$1" "$2" "$((cases / 20))" "$3"
    compared trace "$1" "$2" "$((cases / 20))" "$3"
}

# The cases of compare/vectors that hold with all that has landed, answered through the library and the programs.
vectors() { # NAME
    cut -f1 "compare/vectors/$1.txt" | compare/target/release/answer served "$emulator target/c/serve" target/c/bench target/c/list |
        diff <(cut -f2 "compare/vectors/$1.txt") -
    echo "$1 ok"
}

for name in example text shop lengths; do example "$name" '' $emulator; done
for name in w05-read-only w06-listing-and-c w07-assembler w08-trace w09-columns w10-no-cause-7 w13-recorder w14-jumpers; do
    vectors "$name"
done
all_compared serve "$seed" "$emulator target/c/serve" &
plain=$!
if [ -x target/c/serve-asan ]; then
    for name in example text shop lengths; do example "$name" -asan; done
    all_compared serve-asan "$((seed + 1))" target/c/serve-asan
fi
wait "$plain"
compared list list "$seed" "$((cases / 20))" "target/c/list"
