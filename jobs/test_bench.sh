#!/usr/bin/env bash
# Runs bench on every sample job, from a file and from a slow pipe, and on inputs at and over the longest job, and holds what it
# prints to what it should: test_bench.sh. With a seed and a number also against the plain interpreter, on as many generated
# jobs: test_bench.sh SEED JOBS (build it first: cargo build --release in compare). BENCH is the command to test; without it, the
# bench that rt run proves and links in its folder.
set -euo pipefail
cd "$(dirname "$0")/.."
bench=${BENCH:-jobs/run_program.sh crates/bench/out/bench}
made=$(mktemp -d)
trap 'rm -rf "$made"' EXIT
wrong=0
same() { # NAME GOT WANT
    if [ "$2" = "$3" ]; then
        echo "$1 ok"
    else
        echo "$1 WRONG"
        printf '  got  %s\n  want %s\n' "$2" "$3"
        wrong=1
    fi
}
for text in jobs/*.txt; do
    # A job with a board of its own is none for bench.
    ! grep -Eq '^(microm|jumpers|external) ' "$text" || continue
    name=$(basename "$text" .txt)
    ./hitch job --unproved "$text" >"$made/job" 2>"$made/said" || { cat "$made/said"; exit 1; }
    same "$name" "$($bench <"$made/job")" "$(cat "jobs/$name.line")"
done
./hitch job --unproved jobs/example.txt >"$made/job" 2>/dev/null
half=$(($(wc -c <"$made/job") / 2))
slow() { head -c "$half" "$made/job"; sleep 0.3; tail -c "+$((half + 1))" "$made/job"; }
same pipe "$(slow | $bench)" "$(cat jobs/example.line)"
# The longest job: all pages, 4,096 words from 0000 on, 4,096 line words, all pages read-only. All op codes are NOP.
longest() {
    python3 -c 'import sys
word = lambda n: n.to_bytes(2, "little")
job = word(256) + bytes(range(256)) + word(4096) + b"".join(word(2 * n) + word(0) for n in range(4096)) + word(4096) + bytes(8192)
job += word(256) + bytes(range(256))
assert len(job) == 25096
sys.stdout.buffer.write(job + bytes(int(sys.argv[1])))' "$1"
}
same longest "$(longest 0 | $bench)" "0000 0000 0000 0000 0000 0000 0000 2000 0F00 0 0000 ---- ----"
same one-byte-more "$(longest 1 | $bench)" "REFUSED 20"
same much-more "$(longest 100000 | $bench)" "REFUSED 20"
same empty "$($bench </dev/null)" "REFUSED 11"
if [ $# -eq 2 ]; then
    # Half of the jobs on each of two cores.
    compare/target/release/difftest bench "$bench" "$1" "$(($2 / 2))" &
    half=$!
    compare/target/release/difftest bench "$bench" "$(($1 + 1))" "$(($2 / 2))" || wrong=1
    wait "$half" || wrong=1
fi
exit "$wrong"
