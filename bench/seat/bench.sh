#!/usr/bin/env bash
# Times messages between two seats over rings beside messages between two threads over bare `rtrb`
# rings: a stream one way, and a ping-pong in which each message waits for the one before. All in
# turn, on all processors. Prints nanoseconds a message and how many times as long seats take.
# `RUNS=21 MESSAGES=100000 bench/seat/bench.sh` says how often, and how many messages.
# `BENCH_SEATS=PROGRAM bench/seat/bench.sh` takes a program that is built already.
set -euo pipefail
runs=${RUNS:-21}
messages=${MESSAGES:-100000}
top=$(cd "$(dirname "$0")/../.." && pwd)
folder=$(mktemp -d)
trap 'rm -rf "$folder"' EXIT

program=${BENCH_SEATS:-}
if [[ -z $program ]]; then
    program=$top/crates/bench_seats/out/bench_seats
    (cd "$top/crates/bench_seats" && rt run < stdin > /dev/null)
fi

# The nanoseconds a message of one run, of the whole and of the taker.
once() {
    "$program" "$@" | awk '{ printf "%.1f %.1f\n", $2 / $1, $3 / $1 }'
}

# The best and the median of that column of the file.
summary() {
    sort -n -k "$2,$2" "$1" | awk -v c="$2" '{ t[NR] = $c } END { print t[1], t[int((NR + 1) / 2)] }'
}

for kind in stream pingpong; do : > "$folder/$kind"; : > "$folder/bare_$kind"; done
# in turn, so that all meet the same load of the machine
for ((i = 0; i < runs; i++)); do
    for kind in stream pingpong; do
        once "$kind" "$messages" >> "$folder/$kind"
        once bare "$kind" "$messages" >> "$folder/bare_$kind"
    done
done

printf '| What | Of | By hand, best ns | Median ns | Seats, best ns | Median ns | Seats to by hand, best | Median |\n|---|---|---|---|---|---|---|---|\n'
for kind in stream pingpong; do
    what='a message of a stream'
    [[ $kind == pingpong ]] && what='a hop of a ping-pong'
    for column in 2 1; do
        of='the messages alone'
        ((column == 1)) && of='the whole run'
        echo "$(summary "$folder/bare_$kind" "$column") $(summary "$folder/$kind" "$column")" |
            awk -v w="$what" -v o="$of" '{
                printf "| %s | %s | %.0f | %.0f | %.0f | %.0f | %.1f | %.1f |\n", w, o, $1, $2, $3, $4, $3 / $1, $4 / $2
            }'
    done
done
