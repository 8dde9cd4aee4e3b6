#!/usr/bin/env bash
# How many instructions a countdown is, counted by valgrind: the difference between 10,000 tables of which a slot is filled
# and counted, and 10,000 of which it is filled alone.
#
# Build the program first: cd crates/ocr_bench_count && rt run -- 1000 1, which leaves it as
# crates/ocr_bench_count/out/ocr_bench_count.
# Then, in any folder: bench/count.sh [PROGRAM]

set -euo pipefail

here=$(cd "$(dirname "$0")" && pwd)
program=${1:-$here/../crates/ocr_bench_count/out/ocr_bench_count}

instructions() {
    valgrind --tool=callgrind --callgrind-out-file=/dev/null "$program" "$@" 2>&1 >/dev/null |
        awk '/Collected/ { print $4 }'
}

filled=$(instructions 10000 0)
counted=$(instructions 10000 1)
printf 'countdown %s\n' $(((counted - filled) / 10000))
