#!/usr/bin/env bash
# Times `sj big N` for N from 10 to 1,000 beside `sj run` and `sj sim` of its file, and beside programs that
# move the same messages by hand, with no check and no log: over channels of Rust's standard library and,
# where this machine has them, of Go and over Erlang's processes. Each time is the median of whole processes,
# in turn; the peak of resident memory is the median, too. `RUNS=11 bench/big/bench.sh` makes fewer than 41.
set -euo pipefail
RUNS=${RUNS:-41}
. "$(dirname "$0")/../frame.sh"

take_sj
found=(big run sim)
command -v rustc > /dev/null && rustc -O -o "$folder/rust" "$here/channels.rs" && found+=(rust)
command -v go > /dev/null && (cd "$here" && GO111MODULE=off go build -o "$folder/go" channels.go) && found+=(go)
command -v escript > /dev/null && found+=(erlang)
echo "Found: ${found[*]}"

# One whole process of that kind.
once() {
    case $1 in
        big) "$program" big "$2" ;;
        run | sim) "$program" "$1" < "$folder/$2.sj" ;;
        rust | go) "$folder/$1" "$2" ;;
        erlang) escript "$here/channels.escript" "$2" ;;
    esac
}

printf '| N | Messages |'
printf ' %s, ms |' "${found[@]}"
printf ' big to rust | Peak of big, KiB |\n|---|---|'
printf -- '---|%.0s' "${found[@]}" x y
printf '\n'
for n in 10 100 400 1000; do
    "$program" make "$n" > "$folder/$n.sj"
    for kind in "${found[@]}"; do : > "$folder/of_$kind"; done
    for ((i = 0; i < runs; i++)); do
        for kind in "${found[@]}"; do micros_of once "$kind" "$n" >> "$folder/of_$kind"; done
    done
    printf '| %d | %d |' "$n" $((10 * n + 15))
    for kind in "${found[@]}"; do
        summary "$folder/of_$kind" | awk '{ printf " %.2f |", $2 / 1000 }'
    done
    if [[ -e $folder/of_rust ]]; then
        { summary "$folder/of_big"; summary "$folder/of_rust"; } | paste -s -d ' ' | awk '{ printf " %.1f |", $2 / $4 }'
    else
        printf ' - |'
    fi
    peak=$(peak_on "$folder/empty" big "$n")
    printf ' %d |\n' "$peak"
    echo "$((10 * n + 15)) $peak" >> "$folder/growth"
done
awk 'NR == 1 { m = $1; p = $2 } END {
    printf "\nFrom the first row to the last, a message: %.1f bytes of memory.\n", 1024 * ($2 - p) / ($1 - m)
}' "$folder/growth"
