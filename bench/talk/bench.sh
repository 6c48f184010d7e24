#!/usr/bin/env bash
# Times `sj talk 0` on talks of 100, 1,000 and 10,000 lines: builds `sj` once, and prints the best and the median
# time of many runs on each, beyond those on a talk of two lines, and the peak of resident memory.
# `RUNS=5 bench/talk/bench.sh` makes fewer runs than 20.
set -euo pipefail
RUNS=${RUNS:-20}
. "$(dirname "$0")/../frame.sh"

take_sj
awk -v kind=says -v lines=2 -f "$here/lines.awk" > "$folder/empty"
printf '| Talk | Lines | Bytes | Best ms | Median ms | Nanoseconds a line | Peak KiB |\n|---|---|---|---|---|---|---|\n'
for kind in says asks refused; do
    for lines in 100 1000 10000; do
        file=$folder/$kind.$lines
        awk -v kind="$kind" -v lines="$lines" -f "$here/lines.awk" > "$file"
        awk -v kind="$kind" -v lines="$lines" -v answers=1 -f "$here/lines.awk" > "$file.answers"
        # what is timed is right, too
        "$program" talk 0 < "$file" | cmp - "$file.answers"
        read -r best median <<< "$(times_on "$file" talk 0)"
        echo "$kind $lines $(wc -c < "$file") $best $median $(peak_on "$file" talk 0)" |
            awk '{ printf "| %s | %d | %d | %s | %s | %.0f | %d |\n", $1, $2, $3, $4, $5, 1000000 * $5 / $2, $6 }'
    done
done
