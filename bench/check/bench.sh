#!/usr/bin/env bash
# Times `sj check`: builds `sj` once, writes files of 65,536 bytes of seventeen kinds, and prints the best and
# the median time of many runs of `check` and of `show` on each, beyond those on an empty file, and the
# peak of resident memory. `RUNS=20 bench/check/bench.sh` makes fewer runs than 200, and a row of slow
# runs ends after half a minute.
set -euo pipefail
. "$(dirname "$0")/../frame.sh"

take_sj
printf '| File | Answer | Check, best ms | Check, median ms | Show, best ms | Show, median ms | Peak KiB |\n|---|---|---|---|---|---|---|\n'
for kind in lets ifs sessions handed loops held beside passed turns arms alike variables known wide labels widths mixed; do
    file=$folder/$kind
    awk -v kind="$kind" -f "$top/bench/check/files.awk" > "$file"
    for times in empty check show; do : > "$folder/$times.times"; done
    begun=$SECONDS
    # in turn, so that all meet the same load of the machine; some are refused
    for ((i = 0; i < runs && SECONDS - begun < 30; i++)); do
        run_on "$folder/empty" check >> "$folder/empty.times"
        run_on "$file" check >> "$folder/check.times" || true
        run_on "$file" show >> "$folder/show.times"
    done
    answer=$(/usr/bin/time -f %M -o "$folder/peak" "$program" check < "$file" || true)
    for times in empty check show; do summary "$folder/$times.times"; done | paste -s -d ' ' |
        awk -v k="$kind" -v a="$answer" -v p="$(cat "$folder/peak")" \
            '{ printf "| %s | %s | %.2f | %.2f | %.2f | %.2f | %d |\n", k, a, ($3 - $1) / 1000, ($4 - $2) / 1000, ($5 - $1) / 1000, ($6 - $2) / 1000, p }'
done
