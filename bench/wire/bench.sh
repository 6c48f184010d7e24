#!/usr/bin/env bash
# Times the decoder: builds crates/bench_wire once, writes a stream of 1,000,000 Carries and one of 4
# Gives of 200,000 messages, and prints the best and the median rate of many runs on each, beyond
# those on an empty stream. `RUNS=20 bench/wire/bench.sh` makes fewer runs than 200.
set -euo pipefail
. "$(dirname "$0")/../frame.sh"

# So many copies of the bytes that are given in hexadecimal.
copies() {
    printf '%s' "$2" | xxd -r -p > "$folder/one"
    xargs cat < <(head -n "$1" < <(yes "$folder/one"))
}

(cd "$top/crates/bench_wire" && rt run < /dev/null > /dev/null)
program=$top/crates/bench_wire/out/bench_wire
copies 1000000 00000024010100000000000000010000000001000000000000000000000000000000000000000005 > "$folder/carries"
give=$(printf '001b7763010600000000000000010000000001000000000000000f424000000000%02x%08x' 1 200000
    tr -d '\n' < <(head -n 200000 < <(yes 000000000000000005))
    printf '00')
copies 4 "$give" > "$folder/gives"
printf '| Stream | Bytes | Frames | Best ms | Median ms | Best MB/s |\n|---|---|---|---|---|---|\n'
for kind in carries gives; do
    file=$folder/$kind
    bytes=$(wc -c < "$file")
    read -r best median <<< "$(times_on "$file")"
    printf '| %s | %d | %s | %s | %s | %d |\n' "$kind" "$bytes" "$("$program" < "$file")" "$best" "$median" \
        "$(awk -v b="$bytes" -v t="$best" 'BEGIN { print int(b / t / 1000) }')"
done
