#!/usr/bin/env bash
# How many instructions a visit (a take and its give back) and a commit are, and besides what the heap takes for an entry
# of the toy machine: its two lists, and room in the log. Counted by valgrind, with one clerk: the difference between
# 20,000 of them and 10,000. What the toy does to make its entry counts as the commit's, and a visit with the loop that
# makes it, in which it stands. Then how many commits a second one, two and four clerks make together, each with its
# visit: by the clock, the difference between 300,000 entries a clerk and 100,000.
#
# Build the program first: cd crates/ocr_bench_turns && rt run -- 2 300 100, which leaves it as
# crates/ocr_bench_turns/out/ocr_bench_turns.
# Then, in any folder: bench/turns.sh [PROGRAM]

set -euo pipefail

here=$(cd "$(dirname "$0")" && pwd)
program=${1:-$here/../crates/ocr_bench_turns/out/ocr_bench_turns}
profile=$(mktemp)
trap 'rm -f "$profile"' EXIT

# the instructions of the heap and of all else
instructions() {
    valgrind --tool=callgrind --callgrind-out-file="$profile" "$program" 1 "$@" >/dev/null 2>&1
    callgrind_annotate --threshold=100 "$profile" | awk '
        /^ *[0-9,]+ +\([ 0-9.]+%\) +[^ ]+:/ {
            class = /alloc|free|memcpy|memmove/ ? "heap" : "rest"
            gsub(",", "", $1)
            sum[class] += $1
        }
        END { print sum["heap"] + 0, sum["rest"] + 0 }'
}

read -r heap rest <<<"$(instructions 10000 10000)"
read -r _ visits <<<"$(instructions 20000 10000)"
read -r heaps turns <<<"$(instructions 10000 20000)"
printf '%-10s %s\n' \
    "visit" $(((visits - rest) / 10000)) \
    "commit" $(((turns - visits) / 10000)) \
    "heap" $(((heaps - heap) / 10000))

# the time of a run, in nanoseconds
nanoseconds() {
    local start
    start=$(date +%s%N)
    "$program" "$@" >/dev/null
    echo $(($(date +%s%N) - start))
}

for clerks in 1 2 4; do
    few=$(nanoseconds "$clerks" 0 100000)
    many=$(nanoseconds "$clerks" 0 300000)
    printf '%-10s %s commits a second\n' "clerks $clerks" $((clerks * 200000 * 1000000000 / (many - few)))
done
