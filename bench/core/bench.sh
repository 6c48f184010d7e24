#!/usr/bin/env bash
# Times the drain of the core world: builds `sj` and `bench_core` once, lets `sj` make the generated file
# for 100 to 1,000 turns of each loop, and prints how long `bench_core` takes beyond `sj check` of the
# same file, by the best and by the median of many runs, and how many events a second that is.
# `RUNS=20 bench/core/bench.sh` makes fewer runs than 200.
set -euo pipefail
. "$(dirname "$0")/../frame.sh"

"$top/sj" --build
sj=$top/crates/sj/out/sj
drain=$top/crates/bench_core/out/bench_core
(cd "$top/crates/bench_core" && rt run < stdin > /dev/null)
printf '| N | Events | Check, median ms | With the drain, median ms | Drain, best ms | Drain, median ms | Events a second |\n|---|---|---|---|---|---|---|\n'
for n in 100 200 400 700 1000; do
    file=$folder/$n
    "$sj" make "$n" > "$file"
    events=$("$drain" < "$file")
    : > "$folder/check_times"
    : > "$folder/drain_times"
    # in turn, so that both meet the same load of the machine
    for ((i = 0; i < runs; i++)); do
        program=$sj run_on "$file" check >> "$folder/check_times"
        program=$drain run_on "$file" >> "$folder/drain_times"
    done
    for times in check_times drain_times; do summary "$folder/$times"; done | paste -s -d ' ' |
        awk -v n="$n" -v e="$events" '{
            printf "| %d | %d | %.2f | %.2f | %.2f | %.2f | %d |\n", n, e, $2 / 1000, $4 / 1000, ($3 - $1) / 1000, ($4 - $2) / 1000, e * 1000000 / ($4 - $2)
        }'
done
