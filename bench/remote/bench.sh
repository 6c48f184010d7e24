#!/usr/bin/env bash
# Times sjparty beside parties written by hand (byhand.c) over a Redis server of its own: the generated file of `sj make 1000` as
# fifteen processes, and two parties that answer each other 2,000 times; once with `appendfsync everysec` and once with `always`.
# Prints the best and the median time of whole runs, from the start of the first process to the end of the last.
# `RUNS=5 bench/remote/bench.sh` makes fewer runs than 20. It takes sj, sjparty and sjjoin as `rt ci` leaves them, or as SJ,
# SJPARTY and SJJOIN name them.
set -euo pipefail
RUNS=${RUNS:-20}
. "$(dirname "$0")/../frame.sh"
sj=${SJ:-$top/crates/sj/out/sj}
sjparty=${SJPARTY:-$top/crates/sjparty/out/sjparty}
sjjoin=${SJJOIN:-$top/crates/sjjoin/out/sjjoin}
turns=1000
port=${PORT:-7391}

for program in redis-server redis-cli gcc; do
    command -v "$program" > /dev/null || { echo "no $program here: apt-get install redis-server gcc"; exit 2; }
done
for program in "$sj" "$sjparty" "$sjjoin"; do
    [ -x "$program" ] || { echo "$program isn't built: rt ci, or rt run in its folder, builds it"; exit 2; }
done
gcc -O2 -o "$folder/byhand" "$here/byhand.c"

server=
# shellcheck disable=SC2317 # the trap calls it
stop() {
    [ -z "$server" ] || kill "$server" 2> /dev/null || true
    wait
    rm -rf "$folder"
}
trap stop EXIT

call() { redis-cli -p "$port" "$@"; }

# Starts the server with that word for appendfsync, and an empty file.
serve() {
    if [ -n "$server" ]; then
        kill "$server"
        wait "$server" || true
    fi
    mkdir "$folder/$1"
    redis-server --bind 127.0.0.1 --port "$port" --dir "$folder/$1" --save '' --appendonly yes --appendfsync "$1" \
        --auto-aof-rewrite-percentage 0 --maxmemory-policy noeviction > "$folder/$1/log" 2>&1 &
    server=$!
    local tries=0
    until [ "$(call config get dir 2> /dev/null | tail -n 1)" = "$folder/$1" ]; do
        tries=$((tries + 1))
        if [ "$tries" -gt 100 ] || ! kill -0 "$server" 2> /dev/null; then
            echo "no server at port $port, or another one; PORT names another port" >&2
            exit 1
        fi
        sleep 0.1
    done
}

# Starts a process for each party, and waits for all of them.
all_parties() {
    local how=$1 pids=() name
    shift
    for name in "$@"; do
        "$how" "$name" &
        pids+=($!)
    done
    for name in "${pids[@]}"; do wait "$name"; done
}
by_sjparty() {
    "$sjparty" "$1" --run "$run" --server "127.0.0.1:$port" --wait 60 < "$folder/$traffic" 2> "$folder/said" || cat "$folder/said" >&2
}
by_hand() { "$folder/byhand" "$port" "$run" "$1" "$turns" "$depth"; }

# The microseconds of one run, whose keys are then gone. What sjparty's run leaves is that of `sim`.
once() {
    run=$1.$2
    micros_of all_parties "$1" $parties
    if [ "$1" = by_sjparty ] && ! "$sjjoin" --run "$run" --server "127.0.0.1:$port" --now | cmp -s - "$folder/$traffic.sim"; then
        echo "$traffic: not what sim prints" >&2
        exit 1
    fi
}

# The entries of the last run of sjparty, and its events.
counts() {
    local at entries=0
    for ((at = 0; at < $(wc -w <<< "$parties"); at++)); do entries=$((entries + $(call xlen "sj:{$run}:log:$at"))); done
    echo "$entries $("$sjjoin" --run "$run" --server "127.0.0.1:$port" --log | sed -n '/^%%log/,$p' | tail -n +2 | wc -l)"
}

# One row: both in turn, so that both meet the same load of the machine. The last column is that of the medians.
row() {
    traffic=$1 depth=$2 parties=$3
    local i said
    : > "$folder/own"
    : > "$folder/hand"
    for ((i = 0; i < runs; i++)); do
        once by_hand "$i" >> "$folder/hand"
        once by_sjparty "$i" >> "$folder/own"
        said=$(counts)
        call flushall > /dev/null
    done
    for i in own hand; do summary "$folder/$i"; done | paste -s -d ' ' |
        awk -v head="| $fsync | $4 | $5 | ${said/ / | }" '{
            printf "%s | %.1f | %.1f | %.1f | %.1f | %.2f |\n", head, $1 / 1000, $2 / 1000, $3 / 1000, $4 / 1000, $2 / $4
        }'
}

"$sj" make "$turns" > "$folder/make"
cat > "$folder/pong" << END
protocol a { begin.![!<int>.?(int)]* }
protocol b { begin.?[?(int).!<int>]* }
party ping { outwhile x $turns { send x 1; recv x n int; } close x; }
party pong { inwhile y { recv y n int; send y n; } close y; }
connect ping x a to pong y b;
END
for traffic in make pong; do "$sj" sim < "$folder/$traffic" > "$folder/$traffic.sim"; done
makers="a0 b0 c0 a1 b1 c1 a2 b2 c2 a3 b3 c3 a4 b4 c4"
echo '| appendfsync | Traffic; by hand | Messages | Entries | Events | sjparty, best ms | Median ms | By hand, best ms | Median ms | To by hand |'
echo '|---|---|---|---|---|---|---|---|---|---|'
for fsync in everysec always; do
    serve "$fsync"
    row make 100 "$makers" "\`make $turns\`; 100 at a time" $((10 * turns + 15))
    row make 1 "$makers" "\`make $turns\`; one at a time" $((10 * turns + 15))
    row pong 1 "ping pong" "$((2 * turns)) hops; one at a time" $((3 * turns + 1))
done
