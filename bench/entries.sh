#!/usr/bin/env bash
# Runs programs of about 2,000, 20,000 and 200,000 entries, and prints for each the processor's seconds and the most memory.
# The seconds rise with the entries. Fails where a run takes more than 1 s.
#
# Build the program first: cd crates/ocr && rt run -- run < stdin, which leaves it as crates/ocr/out/ocr.
# Then, in any folder: bench/entries.sh [PROGRAM]

set -euo pipefail

here=$(cd "$(dirname "$0")" && pwd)
program=${1:-$here/../crates/ocr/out/ocr}
work=$(mktemp -d)
trap 'rm -rf "$work"' EXIT

failed=0
printf '%8s %8s %6s %6s\n' entries seconds MB status
for edts in 19 194 1941; do
    # Each EDT is made by one entry, starts, prints 100 times, and ends.
    cat >"$work/text" <<END
fn prints { let i = 0; while i < 100 { print i; i = i + 1; } }
fn mainEdt {
  let t = ocrEdtTemplateCreate(prints, 0, 0);
  let k = 0;
  while k < $edts { ocrEdtCreate(t, 0, [], 0, [], 0); k = k + 1; }
}
END
    status=0
    /usr/bin/time -q -o "$work/taken" -f '%U %S %M' "$program" run --workers 1 <"$work/text" >"$work/out" || status=$?
    read -r user system kilobytes <"$work/taken"
    seconds=$(awk -v u="$user" -v s="$system" 'BEGIN { printf "%.2f", u + s }')
    printf '%8d %8s %6d %6d\n' $((5 + edts * 103)) "$seconds" $((kilobytes / 1024)) "$status"
    if awk -v s="$seconds" 'BEGIN { exit !(s > 1) }'; then
        echo "  more than 1 s"
        failed=1
    fi
done
exit $failed
