#!/usr/bin/env bash
# Runs the program on large texts, and prints for each its bytes, the processor's seconds and the most memory that the run
# took, its status and the first line of its standard error. Fails where a run takes more than 1 s or 300 MB.
#
# Build the program first: cd crates/ocr && rt run -- run < stdin, which leaves it as crates/ocr/out/ocr.
# Then, in any folder: bench/text.sh [PROGRAM [TEXT..]], where PROGRAM is another than that, and each TEXT names a maker
# of bench/texts.py. With no TEXT it runs all.

set -euo pipefail

most_seconds=1
most_megabytes=300

here=$(cd "$(dirname "$0")" && pwd)
program=${1:-$here/../crates/ocr/out/ocr}
shift || true
work=$(mktemp -d)
trap 'rm -rf "$work"' EXIT
mkdir "$work/texts"
python3 "$here/texts.py" "$work/texts" "$@"

failed=0
printf '%-32s %8s %8s %6s %6s  %s\n' text bytes seconds MB status answer
for text in "$work"/texts/*; do
    status=0
    /usr/bin/time -q -o "$work/taken" -f '%U %S %M' "$program" run <"$text" >"$work/out" 2>"$work/err" || status=$?
    read -r user system kilobytes <"$work/taken"
    seconds=$(awk -v u="$user" -v s="$system" 'BEGIN { printf "%.2f", u + s }')
    megabytes=$((kilobytes / 1024))
    printf '%-32s %8d %8s %6d %6d  %s\n' \
        "$(basename "$text")" "$(stat -c %s "$text")" "$seconds" "$megabytes" "$status" "$(head -n 1 "$work/err" | cut -c 1-60)"
    if awk -v s="$seconds" -v most="$most_seconds" 'BEGIN { exit !(s > most) }'; then
        echo "  more than $most_seconds s"
        failed=1
    fi
    if ((megabytes > most_megabytes)); then
        echo "  more than $most_megabytes MB"
        failed=1
    fi
done
exit $failed
