#!/usr/bin/env bash
# How many instructions a push, a take and a steal are, counted by valgrind: the difference between 200,000 of them and 100,000.
#
# Build the program first: cd crates/ocr_bench_steal && rt run -- 1000 600 400, which leaves it as
# crates/ocr_bench_steal/out/ocr_bench_steal.
# Then, in any folder: bench/steal.sh [PROGRAM]

set -euo pipefail

here=$(cd "$(dirname "$0")" && pwd)
program=${1:-$here/../crates/ocr_bench_steal/out/ocr_bench_steal}

instructions() {
    valgrind --tool=callgrind --callgrind-out-file=/dev/null "$program" "$@" 2>&1 >/dev/null |
        awk '/Collected/ { print $4 }'
}

each() {
    local name=$1 less more
    less=$(instructions $2)
    more=$(instructions $3)
    printf '%-8s %s\n' "$name" $(((more - less) / 100000))
}

each push "100000 0 0" "200000 0 0"
each take "200000 0 0" "200000 100000 0"
each steal "200000 0 0" "200000 0 100000"
