#!/usr/bin/env bash
# Times `sj run` beside `sj sim`, and measures its memory: builds `sj` once, lets it make the generated
# file for 100 to 1,000 turns of each loop, and prints the best and the median time of many runs of both
# on each, and of `run` on one processor, beyond those on an empty file, and how far the peak of resident
# memory of `run` rises a message. `RUNS=20 bench/run/bench.sh` makes fewer runs than 200.
set -euo pipefail
. "$(dirname "$0")/../frame.sh"

# The microseconds of one run on that file on one processor.
pinned_on() {
    micros_of taskset -c 0 "$program" run < "$1"
}

take_sj
printf '| N | Messages | Events | Sim, best ms | Sim, median ms | Run, best ms | Run, median ms | Run to sim | One processor, best ms | One processor, median ms | Peak KiB |\n|---|---|---|---|---|---|---|---|---|---|---|\n'
for n in 100 200 400 700 1000; do
    file=$folder/$n
    "$program" make "$n" > "$file"
    messages=$("$program" sim < "$file" | grep -c '^[0-9]')
    events=$("$program" run --log < "$file" | sed '1,/^%%log$/d' | wc -l)
    for words in start_sim start_run start_pinned sim run pinned; do : > "$folder/$words"; done
    # in turn, so that all meet the same load of the machine
    for ((i = 0; i < runs; i++)); do
        run_on "$folder/empty" sim >> "$folder/start_sim"
        run_on "$folder/empty" run >> "$folder/start_run"
        pinned_on "$folder/empty" >> "$folder/start_pinned"
        run_on "$file" sim >> "$folder/sim"
        run_on "$file" run >> "$folder/run"
        pinned_on "$file" >> "$folder/pinned"
    done
    peak=$(peak_on "$file" run)
    for words in start_sim start_run start_pinned sim run pinned; do summary "$folder/$words"; done | paste -s -d ' ' |
        awk -v n="$n" -v m="$messages" -v e="$events" -v p="$peak" '{
            printf "| %d | %d | %d | %.2f | %.2f | %.2f | %.2f | %.1f | %.2f | %.2f | %d |\n", n, m, e, ($7 - $1) / 1000, ($8 - $2) / 1000, ($9 - $3) / 1000, ($10 - $4) / 1000, ($10 - $4) / ($8 - $2), ($11 - $5) / 1000, ($12 - $6) / 1000, p
        }'
    echo "$messages $peak" >> "$folder/growth"
done
awk 'NR == 1 { m = $1; p = $2 } END {
    printf "\nFrom the first row to the last, a message: %.1f bytes of memory.\n", 1024 * ($2 - p) / ($1 - m)
}' "$folder/growth"
