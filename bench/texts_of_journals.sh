#!/usr/bin/env bash
# Makes the texts of journals of about 2,000, 20,000 and 200,000 entries, and their reports, and prints for each the
# processor's seconds and the most memory, both besides what the journal takes alone. The report on blocks is left out,
# since it plays a run again (bench/replay.sh). The seconds rise with the entries. Fails where the text of a journal takes
# more than 0.3 s or more than 64 bytes of memory by the byte, or the reports take more than 1 s.
#
# Build the program first: cd crates/ocr_bench_texts && rt run -- 2 1, which leaves it as
# crates/ocr_bench_texts/out/ocr_bench_texts.
# Then, in any folder: bench/texts_of_journals.sh [PROGRAM]

set -euo pipefail

here=$(cd "$(dirname "$0")" && pwd)
program=${1:-$here/../crates/ocr_bench_texts/out/ocr_bench_texts}
work=$(mktemp -d)
trap 'rm -rf "$work"' EXIT

# run EDTS WHAT: sets entries, bytes, seconds and kilobytes
run() {
    /usr/bin/time -q -o "$work/taken" -f '%U %S %M' "$program" "$1" "$2" >"$work/out"
    read -r entries bytes <"$work/out"
    read -r user system kilobytes <"$work/taken"
    seconds=$(awk -v u="$user" -v s="$system" 'BEGIN { printf "%.2f", u + s }')
}

above() {
    awk -v a="$1" -v most="$2" 'BEGIN { exit !(a > most) }'
}

failed=0
printf '%8s %-8s %9s %8s %6s\n' entries text bytes seconds KB
for edts in 400 4000 40000; do
    run "$edts" 0
    alone=$seconds
    base=$kilobytes
    for what in 1 2; do
        run "$edts" "$what"
        seconds=$(awk -v s="$seconds" -v a="$alone" 'BEGIN { s -= a; printf "%.2f", s < 0 ? 0 : s }')
        besides=$((kilobytes - base))
        name=$([ "$what" = 1 ] && echo journal || echo reports)
        printf '%8d %-8s %9d %8s %6d\n' "$entries" "$name" "$bytes" "$seconds" "$besides"
        if [ "$what" = 1 ] && above "$seconds" 0.3; then
            echo "  more than 0.3 s"
            failed=1
        fi
        # below 1,000,000 bytes, the program's pages tell more than the text
        if [ "$what" = 1 ] && ((bytes > 1000000 && besides * 1024 > 64 * bytes)); then
            echo "  more than 64 bytes of memory by the byte"
            failed=1
        fi
        if [ "$what" = 2 ] && above "$seconds" 1; then
            echo "  more than 1 s"
            failed=1
        fi
    done
done
exit $failed
