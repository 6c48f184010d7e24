#!/usr/bin/env bash
# Two builds of `sj` beside each other, and beside the Rust process of bench/big: `bench/run/compare.sh BEFORE [AFTER]` takes the paths of two programs, the second one
# `crates/sj/out/sj` where it isn't named. Whole processes in turn, start-up included: the best and the median time of each call of both, the peak of resident memory of `run`,
# and how far it rises a message, for the generated file and for four files at the limits (limits.awk). `RUNS=11` makes fewer runs than 41.
set -euo pipefail
RUNS=${RUNS:-41}
. "$(dirname "$0")/../frame.sh"
before=$1
after=${2:-$top/crates/sj/out/sj}
rust=
command -v rustc > /dev/null && rustc -O -o "$folder/rust" "$top/bench/big/channels.rs" && rust=$folder/rust

"$after" make 100 > "$folder/made100"
"$after" make 1000 > "$folder/made1000"
for loops in 1 2 4 5; do awk -v loops="$loops" -f "$here/limits.awk" > "$folder/limits$loops"; done
"$after" run --log < "$folder/made1000" > "$folder/log"
{ cat "$folder/made1000"; sed -n '/^%%log$/,$p' "$folder/log"; } > "$folder/logged"

# A row of that name: the call `"$1" WORDS.. < INPUT` of both programs, and which factor lies between their medians.
row() {
    local name=$1 input=$2 prefix=$3 i
    shift 3
    for which in before after; do : > "$folder/of_$which"; done
    for ((i = 0; i < runs; i++)); do
        micros_of $prefix "$before" "$@" < "$input" >> "$folder/of_before"
        micros_of $prefix "$after" "$@" < "$input" >> "$folder/of_after"
    done
    for which in before after; do summary "$folder/of_$which"; done | paste -s -d ' ' |
        awk -v n="$name" '{ printf "| %s | %.1f | %.1f | %.1f | %.1f | %.2f |\n", n, $1 / 1000, $2 / 1000, $3 / 1000, $4 / 1000, $4 / $2 }'
}

# The bytes of peak memory that a further message takes, between two files with so many messages.
growth() {
    local name=$1 small=$2 large=$3 words=$4 one other
    local first last
    first=$("$after" sim < "$small" | grep -c '^[0-9]')
    last=$("$after" sim < "$large" | grep -c '^[0-9]')
    for program in "$before" "$after"; do
        one=$(peak_on "$small" $words)
        other=$(peak_on "$large" $words)
        echo "$one $other"
    done | paste -s -d ' ' | awk -v n="$name" -v m=$((last - first)) '{ printf "| %s | %d | %d | %.0f | %.0f |\n", n, $2, $4, 1024 * ($2 - $1) / m, 1024 * ($4 - $3) / m }'
}

printf '| Call | Before, best ms | Before, median ms | After, best ms | After, median ms | After to before |\n|---|---|---|---|---|---|\n'
row '`big 1000`' "$folder/empty" '' big 1000
row '`run` of its file' "$folder/made1000" '' run
row '`run --looks 0`' "$folder/made1000" '' run --looks 0
row '`run`, one processor' "$folder/made1000" 'taskset -c 0' run
row '`sim`, one processor' "$folder/made1000" 'taskset -c 0' sim
row '`sim`' "$folder/made1000" '' sim
row '`replay` of its log' "$folder/logged" '' replay
for loops in 1 2 4 5; do
    row "\`run\` of $("$after" sim < "$folder/limits$loops" | grep -c '^[0-9]') messages" "$folder/limits$loops" '' run
done
if [[ -n $rust ]]; then
    for ((i = 0; i < runs; i++)); do micros_of "$rust" 1000 >> "$folder/of_rust"; done
    summary "$folder/of_rust" | awk '{ printf "| the Rust process | %.1f | %.1f | | | |\n", $1 / 1000, $2 / 1000 }'
fi
printf '\n| Peak of | Before, KiB | After, KiB | Before, bytes a message | After, bytes a message |\n|---|---|---|---|---|\n'
growth '`run` of the generated file' "$folder/made100" "$folder/made1000" run
growth '`run` of the files at the limits' "$folder/limits1" "$folder/limits5" run
growth '`sim` of the generated file' "$folder/made100" "$folder/made1000" sim
