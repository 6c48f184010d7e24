#!/usr/bin/env bash
# Times `sj run` of the generated file of 1,000 turns with `--workers` 1, 2, 4 and 15 beside `sj run` without
# it, on two and on four processors, by whole processes in turn, and prints how many events the drain did and
# how many rounds one worker made. `RUNS=21 bench/workers/bench.sh` makes fewer runs than 200.
set -euo pipefail
. "$(dirname "$0")/../frame.sh"

take_sj
counts=$top/crates/bench_workers/out/bench_workers
(cd "$top/crates/bench_workers" && rt run < stdin > /dev/null)
file=$folder/1000
"$program" make 1000 > "$file"
kinds=(- 1 2 4 15)

# One whole process on those processors, with so many workers.
once() {
    local words=(run)
    [[ $2 == - ]] || words+=(--workers "$2")
    taskset -c "$1" "$program" "${words[@]}" < "$file"
}

# The median number of events that the drain did on those processors, and that of returns to a lower party.
drained() {
    local i
    : > "$folder/drained"
    : > "$folder/back"
    for ((i = 0; i < 21; i++)); do
        taskset -c "$1" "$counts" "$2" < "$file" | {
            read -r own all back
            echo $((all - own)) >> "$folder/drained"
            echo "$back" >> "$folder/back"
        }
    done
    echo "$(summary "$folder/drained" | cut -d ' ' -f 2) $(summary "$folder/back" | cut -d ' ' -f 2)"
}

printf '| Processors | Workers | Best ms | Median ms | To a thread for each, median | Events of the drain | Rounds |\n|---|---|---|---|---|---|---|\n'
for processors in 0,1 0-3; do
    for kind in "${kinds[@]}"; do : > "$folder/of_$kind"; done
    # in turn, so that all meet the same load of the machine
    for ((i = 0; i < runs; i++)); do
        for kind in "${kinds[@]}"; do micros_of once "$processors" "$kind" >> "$folder/of_$kind"; done
    done
    own=$(summary "$folder/of_-" | cut -d ' ' -f 2)
    for kind in "${kinds[@]}"; do
        read -r left back < <(drained "$processors" "$kind")
        rounds=
        [[ $kind == 1 ]] && rounds=$((back + 2))
        summary "$folder/of_$kind" | awk -v p="$processors" -v k="$kind" -v o="$own" -v l="$left" -v r="$rounds" '{
            printf "| %s | %s | %.2f | %.2f | %.2f | %d | %s |\n", p, k, $1 / 1000, $2 / 1000, $2 / o, l, r
        }'
    done
done
