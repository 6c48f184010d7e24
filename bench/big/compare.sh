#!/usr/bin/env bash
# Two builds of `sj` beside each other and beside the Rust process: `bench/big/compare.sh BEFORE [AFTER]` takes
# the paths of two programs, the second one `crates/sj/out/sj` where it isn't named. Each row is `sj big N`.
# Whole processes in turn, start-up included, and the peak of resident memory. `RUNS=21` makes fewer runs than 41.
set -euo pipefail
RUNS=${RUNS:-41}
. "$(dirname "$0")/../frame.sh"
before=$1
after=${2:-$top/crates/sj/out/sj}
rustc -O -o "$folder/rust" "$here/channels.rs"

printf '| N | Messages | Before, median ms | After, median ms | Rust, median ms | Before to Rust | After to Rust | Before, peak KiB | After, peak KiB |\n|---|---|---|---|---|---|---|---|---|\n'
for n in 10 100 400 1000; do
    for kind in before after rust; do : > "$folder/of_$kind"; done
    for ((i = 0; i < runs; i++)); do
        micros_of "$before" big "$n" >> "$folder/of_before"
        micros_of "$after" big "$n" >> "$folder/of_after"
        micros_of "$folder/rust" "$n" >> "$folder/of_rust"
    done
    program=$before
    one=$(peak_on "$folder/empty" big "$n")
    program=$after
    other=$(peak_on "$folder/empty" big "$n")
    for kind in before after rust; do summary "$folder/of_$kind"; done | paste -s -d ' ' |
        awk -v n="$n" -v a="$one" -v b="$other" '{
            printf "| %d | %d | %.2f | %.2f | %.2f | %.1f | %.1f | %d | %d |\n", n, 10 * n + 15, $2 / 1000, $4 / 1000, $6 / 1000, $2 / $6, $4 / $6, a, b
        }'
done
