#!/usr/bin/env bash
# Replays journals that a program may be handed by somebody who means ill, each of a run, and prints for each how many
# entries it has, the processor's seconds of one replay, those of a journal of prints of the same length with the same limit
# of objects, how many times as long the replay takes, the most memory, and the instructions of making and replaying the
# journal by those at half the size (2 where they rise with the length; counted by valgrind, since the time of so short
# replays rises and falls with the caches). Fails where a replay does not end with Ok, takes more than 1 s, or more than 2.3
# times the instructions of half the size, and where journals of blocks, events and scopes take more than 3 times as long as
# prints.
#
#   prints      mainEdt prints
#   turns       EDTs side by side: their entries take turns one by one, each stands as far off as there are EDTs
#   fan         one event fires so many EDTs, and the last is reached first
#   payloads    a channel that is full, of 1,024 payloads, gives the oldest and gets another
#   links       so many links of a channel wait, and each gets its payload
#   latch       one latch is satisfied so often by calls
#   deliveries  so many messages reach one latch, the last first
#   chain       so many events, each linked to the next
#   queue       so many EDTs wait for one block, and get it one after the other
#   doomed      so many EDTs wait for one block, which is destroyed
#   readers     so many EDTs hold one block
#   holds       one EDT makes so many blocks, and holds them all to its end
#   groups      so many finish EDTs side by side, by turns: each with a block, an output event and a child in its scope, which
#               has an output event and returns the block, and with satisfactions of a latch
#   nested      so many finish EDTs, each made by the one before, and done from the innermost on
#   members     so many EDTs in one scope
#
# Build the program first: cd crates/ocr_bench_replay && rt run -- each 40 1, which leaves it as
# crates/ocr_bench_replay/out/ocr_bench_replay.
# Then, in any folder: bench/replay.sh [PROGRAM]

set -euo pipefail

here=$(cd "$(dirname "$0")" && pwd)
program=${1:-$here/../crates/ocr_bench_replay/out/ocr_bench_replay}
work=$(mktemp -d)
trap 'rm -rf "$work"' EXIT
failed=0

complain() {
    echo "  $1"
    failed=1
}

# the seconds of one replay of a case of this size, of so many, with at least this limit of objects; leaves its entries, its
# objects, its outcome and its memory
replay() {
    /usr/bin/time -q -o "$work/taken" -f '%U %S %M' "$program" "$1" "$2" "$3" "${4:-2}" >"$work/out"
    read -r _ entries objects outcome <"$work/out"
    read -r user system kilobytes <"$work/taken"
    seconds=$(awk -v u="$user" -v s="$system" -v n="$3" 'BEGIN { printf "%.4f", (u + s) / n }')
}

# whether the one is more than so many times the other
passes() {
    awk -v a="$1" -v b="$2" -v n="$3" 'BEGIN { exit !(a > n * b) }'
}

quotient() {
    awk -v a="$1" -v b="$2" 'BEGIN { printf "%.2f", a / (b > 0 ? b : 1) }'
}

# the instructions of making a case of this size and replaying it once
instructions() {
    valgrind --tool=callgrind --callgrind-out-file=/dev/null "$program" "$1" "$2" 1 2 2>&1 >/dev/null |
        awk '/Collected/ { print $4 }'
}

# a case of this size: enough replays to be told from the clock's own steps
measure() {
    local length limit rounds whole kept growth
    replay "$1" "$2" 1
    length=$entries limit=$objects
    rounds=$((1 + 4000000 / length))
    replay "$1" "$2" "$rounds"
    whole=$seconds kept=$kilobytes
    [ "$outcome" = "Ok(())" ] || complain "$1 $2: not Ok"
    replay prints $((length - 5)) "$rounds" "$limit"
    growth=$(quotient "$(instructions "$1" "$2")" "$(instructions "$1" $(($2 / 2)))")
    printf '%-10s %7d %8d %8.3f %8.3f %6s %6d %6s\n' "$1" "$2" "$length" "$whole" "$seconds" \
        "$(quotient "$whole" "$seconds")" $((kept / 1024)) "$growth"
    ! passes "$whole" 1 1 || complain "more than 1 s"
    ! passes "$growth" 1 2.3 || complain "longer than its length"
    [ "$1" != groups ] || ! passes "$whole" "$seconds" 3 || complain "more than 3 times as long as prints"
}

printf '%-10s %7s %8s %8s %8s %6s %6s %6s\n' case size entries seconds prints times MB growth
measure prints 200000
measure turns 25000
measure fan 4000
measure fan 50000
measure payloads 1024
measure payloads 50000
measure links 35000
measure latch 100000
measure deliveries 100000
measure chain 1000
measure chain 45000
measure queue 25000
measure doomed 25000
measure readers 20000
measure holds 30000
measure groups 10500
measure nested 30000
measure members 50000
exit $failed
