#!/usr/bin/env bash
# Two builds of `sj` beside each other with so many workers: `bench/workers/compare.sh BEFORE [AFTER]` takes the
# paths of two programs, the second one `crates/sj/out/sj` where it isn't named. Each row is `sj run` of the
# generated file of 1,000 turns with a thread for each party (-) or with `--workers`, with the usual looks or
# with one, on two and on four processors. Whole processes in turn; `RUNS=21` makes fewer runs than 41.
set -euo pipefail
RUNS=${RUNS:-41}
. "$(dirname "$0")/../frame.sh"
before=$1
after=${2:-$top/crates/sj/out/sj}
file=$folder/1000
"$after" make 1000 > "$file"

# One whole process of that program on those processors, with so many workers and looks.
once() {
    local words=(run)
    [[ $3 == - ]] || words+=(--workers "$3")
    [[ $4 == - ]] || words+=(--looks "$4")
    taskset -c "$2" "$1" "${words[@]}" < "$file"
}

printf '| Processors | Workers | Looks | Before, best ms | Before, median ms | After, best ms | After, median ms | After to before |\n|---|---|---|---|---|---|---|---|\n'
for processors in 0,1 0-3; do
    for looks in - 1; do
        for kind in - 1 2 4 15; do
            : > "$folder/of_before"
            : > "$folder/of_after"
            # in turn, so that both meet the same load of the machine
            for ((i = 0; i < runs; i++)); do
                micros_of once "$before" "$processors" "$kind" "$looks" >> "$folder/of_before"
                micros_of once "$after" "$processors" "$kind" "$looks" >> "$folder/of_after"
            done
            for which in before after; do summary "$folder/of_$which"; done | paste -s -d ' ' |
                awk -v p="$processors" -v k="$kind" -v l="$looks" '{
                    printf "| %s | %s | %s | %.1f | %.1f | %.1f | %.1f | %.2f |\n", p, k, l, $1 / 1000, $2 / 1000, $3 / 1000, $4 / 1000, $4 / $2
                }'
        done
    done
done
