#!/usr/bin/env bash
# Runs each trial at a small count, in less than a minute each; with FULL=1 at its full count, which takes some hours. SEED=N tries others.
# Ends with 1 where something was bad.
cd "$(dirname "$0")" || exit 1
seed=${SEED:-1} status=0

# Runs a script with its small count, or with the full one, which stands behind a dash.
trial() {
    local script=$1 small=() full=()
    shift
    while [ "$1" != - ]; do small+=("$1"); shift; done
    shift
    full=("$@")
    if [ -n "${FULL:-}" ]; then small=("${full[@]}"); fi
    echo "== $script $seed ${small[*]}"
    python3 "$script" "$seed" "${small[@]}" || status=1
}

trial schedules.py 40 10 - 200 50
trial talks.py 1000 - 2000
trial sockets.py 200 - 2000
trial memory.py 60 - 2000
trial streams.py 40 - 500
trial bytes.py 5000 - 1000000
trial remote.py 28 - 500
trial seats.py 20 - 2000
trial remote_seats.py 20 - 2000
trial seat_runs.py 20 400 100 - 500 10000 2000
trial soak.py 0.5 - 30
exit "$status"
