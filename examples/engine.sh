#!/bin/sh
# Plays the three parties of agency.sj as processes over a Redis server of its own: kills one, starts it again, and shows the
# transcript. It takes sjparty and sjjoin as `rt ci` leaves them, or as SJPARTY and SJJOIN name them, and a port that is free, or PORT.
# Ends with 0 where no redis-server is there, and says so.
cd "$(dirname "$0")/.." || exit 1
party=${SJPARTY:-crates/sjparty/out/sjparty}
join=${SJJOIN:-crates/sjjoin/out/sjjoin}
file=examples/agency.sj
port=${PORT:-7399}

if ! command -v redis-server >/dev/null || ! command -v redis-cli >/dev/null; then
    echo "no redis-server here; a package has it: apt-get install redis-server"
    exit 0
fi
for program in "$party" "$join"; do
    if [ ! -x "$program" ]; then
        echo "$program isn't built: rt ci, or rt run in its folder, builds it" >&2
        exit 127
    fi
done

dir=$(mktemp -d) || exit 1
server='' customer='' agency='' supplier=''
stop() {
    for process in $customer $agency $supplier $server; do kill "$process" 2>/dev/null; done
    wait
    rm -rf "$dir"
}
trap stop EXIT
trap 'exit 1' INT TERM

say() { printf '\n== %s\n' "$*"; }
start() { "$party" "$1" --run visit --server "127.0.0.1:$port" --wait 60 <$file & }
joined() { "$join" --run visit --server "127.0.0.1:$port" "$@"; }
# waits until a line of that form stands in what the run did so far
until_now() {
    tries=0
    until joined --now | grep -q "$1"; do
        tries=$((tries + 1))
        if [ "$tries" -gt 600 ]; then
            echo "late: $1" >&2
            exit 1
        fi
        sleep 0.1
    done
}

say "a server that keeps each entry before it answers"
redis-server --bind 127.0.0.1 --port "$port" --dir "$dir" --save '' --appendonly yes --appendfsync always \
    --maxmemory-policy noeviction >"$dir/server.log" 2>&1 &
server=$!
tries=0
until [ "$(redis-cli -p "$port" ping 2>/dev/null)" = PONG ]; do
    tries=$((tries + 1))
    if [ "$tries" -gt 100 ] || ! kill -0 "$server" 2>/dev/null; then
        cat "$dir/server.log" >&2
        exit 1
    fi
    sleep 0.1
done

if [ "$(redis-cli -p "$port" config get dir | tail -n 1)" != "$dir" ]; then
    echo "port $port is another server's; PORT names another one" >&2
    exit 1
fi

say "the customer and the agency; the supplier isn't started yet"
start customer
customer=$!
start agency
agency=$!
until_now '^party agency waits\|^party agency ended'
joined --now

say "the agency's process is killed"
kill -9 "$agency"
wait "$agency" 2>/dev/null
agency=''
joined --now | sed -n '/^party /p; $p'

say "it is started again, and the supplier"
start agency
agency=$!
start supplier
supplier=$!
for process in $customer $agency $supplier; do
    wait "$process" || exit 1
done
customer='' agency='' supplier=''

say "the transcript, as sj sim prints it"
joined >"$dir/transcript" || exit 1
cat "$dir/transcript"
cmp "$dir/transcript" examples/agency.txt || exit 1
joined --drop
