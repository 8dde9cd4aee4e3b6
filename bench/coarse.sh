#!/usr/bin/env bash
# How many times faster 4 workers are than one where EDTs do much and share nothing: 200 EDTs of about 900,000 units of fuel
# each, by the clock, the middle one of 15 runs, which take turns. Fails where they are less than 3.4 times as fast. It tells
# something only on an idle machine of at least 4 cores; so between the runs bench/taken.py looks how much of its processors
# something else takes, a virtual machine's host, say, and with more than 10 thousandths of them it fails too, whatever the
# times. What one worker takes while three more programs like it run, which share nothing, tells how fast a processor is while
# all are at work.
#
# Build the program first: cd crates/ocr && rt run -- run < stdin, which leaves it as crates/ocr/out/ocr.
# Then, in any folder: bench/coarse.sh [PROGRAM]

set -euo pipefail

least=3.4
most=10

here=$(cd "$(dirname "$0")" && pwd)
program=${1:-$here/../crates/ocr/out/ocr}
work=$(mktemp -d)
trap 'rm -rf "$work"' EXIT

# a turn is 8 units
cat >"$work/edts" <<END
fn counts { let i = 0; while i < 112499 { i = i + 1; } }
fn mainEdt {
  let t = ocrEdtTemplateCreate(counts, 0, 0);
  let k = 0;
  while k < 200 { ocrEdtCreate(t, 0, [], 0, [], 0); k = k + 1; }
}
END

# taken WORKERS: what a run takes, in nanoseconds
taken() {
    local start
    start=$(date +%s%N)
    "$program" run --workers "$1" <"$work/edts" || exit # ends the script where a run does not end well
    echo "$(($(date +%s%N) - start))"
}

# what a run of one worker takes beside three like it, in nanoseconds: the mean of the four
beside() {
    local one pids=()
    for one in 1 2 3 4; do
        taken 1 >"$work/beside.$one" &
        pids+=($!)
    done
    for one in "${pids[@]}"; do
        wait "$one"
    done
    awk '{ sum += $1 } END { printf "%d\n", sum / NR }' "$work"/beside.[1-4]
}

# middle FILE: the middle one of its 15 numbers
middle() {
    sort -n "$1" | sed -n 8p
}

# times ONE FOUR: how many times as fast
times() {
    awk -v a="$1" -v b="$2" 'BEGIN { printf "%.2f", a / b }'
}

# row NAME NANOSECONDS
row() {
    awk -v name="$1" -v n="$2" 'BEGIN { printf "%-24s %8.3f\n", name, n / 1e9 }'
}

for _ in {1..15}; do
    taken 1 >>"$work/one"
    taken 4 >>"$work/four"
    beside >>"$work/beside"
    "$here/taken.py" 0.3 >>"$work/taken"
done
one=$(middle "$work/one")
four=$(middle "$work/four")
beside=$(middle "$work/beside")
printf '%-24s %8s\n' workers seconds
row '1, alone' "$one"
row '1, beside three others' "$beside"
row '4' "$four"
alone=$(times "$one" "$four")
gone=$(awk '{ sum += $1 } END { printf "%d", sum / NR + 0.5 }' "$work/taken")
echo "4 workers are $alone times as fast as one alone, $(times "$beside" "$four") times as fast as one beside three others"
echo "something else took $gone thousandths of the processors"
if [ "$gone" -gt "$most" ]; then
    echo "  more than $most: the machine is not idle, and the times say nothing"
    exit 1
fi
if awk -v t="$alone" -v least="$least" 'BEGIN { exit !(t < least) }'; then
    echo "  less than $least times, on $(nproc) cores"
    exit 1
fi
