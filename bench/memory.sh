#!/usr/bin/env bash
# How many bytes a run keeps for an entry at its peak, with 1, 2 and 4 workers: the difference of the most memory between
# runs of about 200,000 and 400,000 entries, which EDTs of 1,000 prints each make. The text of the prints, about 4 bytes an
# entry, is in it. Of each it takes the middle one of five runs: what the allocator keeps of blocks that grew differs by a
# megabyte or two from run to run, whatever the length. Fails where it is more than 200.
#
# Build the program first: cd crates/ocr && rt run -- run < stdin, which leaves it as crates/ocr/out/ocr.
# Then, in any folder: bench/memory.sh [PROGRAM]

set -euo pipefail

most=200

here=$(cd "$(dirname "$0")" && pwd)
program=${1:-$here/../crates/ocr/out/ocr}
work=$(mktemp -d)
trap 'rm -rf "$work"' EXIT

# run WORKERS EDTS: the most memory of a run, in kilobytes, the middle one of five
run() {
    cat >"$work/text" <<END
fn prints { let i = 0; while i < 1000 { print i; i = i + 1; } }
fn mainEdt {
  let t = ocrEdtTemplateCreate(prints, 0, 0);
  let k = 0;
  while k < $2 { ocrEdtCreate(t, 0, [], 0, [], 0); k = k + 1; }
}
END
    for _ in {1..5}; do
        /usr/bin/time -q -o "$work/taken" -f '%M' "$program" run --workers "$1" --events 4000000 \
            <"$work/text" >"$work/out" || exit # ends the script where the run does not end well
        cat "$work/taken"
    done | sort -n | sed -n 3p
}

failed=0
printf '%8s %8s %8s %6s\n' workers KB "KB twice" bytes
for workers in 1 2 4; do
    few=$(run "$workers" 200)
    many=$(run "$workers" 400)
    # Each EDT is made by one entry, starts, prints 1,000 times, and ends.
    bytes=$(((many - few) * 1024 / (200 * 1003)))
    printf '%8d %8d %8d %6d\n' "$workers" "$few" "$many" "$bytes"
    if ((bytes > most)); then
        echo "  more than $most bytes an entry"
        failed=1
    fi
done
exit $failed
