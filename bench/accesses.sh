#!/usr/bin/env bash
# How many instructions the walker and its Api take for a load and for a store in a block that is held in EW, counted by
# valgrind: the difference between 1,000 and 11,000 turns of one loop. `unit` and `mixed` are a unit of fuel in a loop of
# 8 units a turn, and of 24 with operators and tests; `copy` is the statement `j = k;`, `load` is `j = load(depv[0], k);`,
# `sum` is `j = j + load(depv[0], k);` and `store` is `store(depv[0], k, i);`, each less the empty turn and so with the
# statement around it; `api load` and `api store` are what the Api takes of them, asked in a loop by itself.
#
# Build the program first: cd crates/ocr_bench_body && rt run -- mixed 1000, which leaves it as
# crates/ocr_bench_body/out/ocr_bench_body.
# Then, in any folder: bench/accesses.sh [PROGRAM]

set -euo pipefail

here=$(cd "$(dirname "$0")" && pwd)
program=${1:-$here/../crates/ocr_bench_body/out/ocr_bench_body}

instructions() {
    valgrind --tool=callgrind --callgrind-out-file=/dev/null "$program" "$@" 2>&1 >/dev/null |
        awk '/Collected/ { print $4 }'
}

# what a turn takes, in thousands
turn() {
    echo $((($(instructions "$1" 11000) - $(instructions "$1" 1000)) / 10))
}

show() {
    awk -v name="$1" -v of="$2" -v by="$3" 'BEGIN { printf "%-10s %7.2f\n", name, of / by / 1000 }'
}

for word in unit mixed copy load sum store asks tells; do
    "$program" "$word" 1 >/dev/null # ends the script where a body is refused
done

empty=$(turn unit)
show unit "$empty" 8
show mixed "$(turn mixed)" 24
for statement in copy load sum store; do
    show "$statement" $(($(turn "$statement") - empty)) 1
done
show "api load" "$(turn asks)" 1
show "api store" "$(turn tells)" 1
