#!/usr/bin/env bash
# Times `sj sim` and measures its memory: builds `sj` once, lets it make the generated file for 100 to
# 1,000 turns of each loop, and prints the best and the median time of many runs on each, beyond those
# on an empty file, and how far the peak of resident memory rises a message. `RUNS=20
# bench/sim/bench.sh` makes fewer runs than 200.
set -euo pipefail
. "$(dirname "$0")/../frame.sh"

take_sj
printf '| N | Messages | Steps | Best ms | Median ms | Bytes of transcript | Peak KiB |\n|---|---|---|---|---|---|---|\n'
for n in 100 200 400 700 1000; do
    file=$folder/$n
    "$program" make "$n" > "$file"
    "$program" sim < "$file" > "$folder/transcript"
    read -r best median <<< "$(times_on "$file" sim)"
    messages=$(grep -c '^[0-9]' "$folder/transcript")
    steps=$(awk '$1 == "party" { sum += $4 } END { print sum }' "$folder/transcript")
    bytes=$(wc -c < "$folder/transcript")
    peak=$(peak_on "$file" sim)
    printf '| %d | %d | %d | %s | %s | %d | %d |\n' "$n" "$messages" "$steps" "$best" "$median" "$bytes" "$peak"
    echo "$messages $bytes $peak" >> "$folder/growth"
done
awk 'NR == 1 { g = $1; w = $2; p = $3 } END {
    printf "\nFrom the first row to the last, a message: %.1f bytes of memory, %.1f bytes of transcript.\n", 1024 * ($3 - p) / ($1 - g), ($2 - w) / ($1 - g)
}' "$folder/growth"

# a file in which 1,000 sessions are opened and accepted
awk -f "$top/bench/sim/requests.awk" > "$folder/requests"
read -r best median <<< "$(times_on "$folder/requests" sim)"
printf '\nrequests: best %s ms, median %s ms, peak %d KiB\n' "$best" "$median" "$(peak_on "$folder/requests" sim)"

# a file that asks more of each step than any other that was tried; it comes to the limit of steps, and so
# its runs end with status 7
set +e
awk -f "$top/bench/sim/turns.awk" > "$folder/turns"
runs=$((runs < 20 ? runs : 20))
read -r best median <<< "$(times_on "$folder/turns" sim)"
printf '\nturns: best %s ms, median %s ms, peak %d KiB\n' "$best" "$median" "$(peak_on "$folder/turns" sim)"
