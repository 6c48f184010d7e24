#!/usr/bin/env bash
# Sets the two ways of handing an end over side by side: builds `sj` once, and prints for the agency and for
# files with one end delegated 1 to 100 times how many frames `run` and `run --forward` deliver, how many bytes
# of Carries are delivered again, and how long the longest way of a message is. Then it times `run --forward`
# of the generated file beside `sim`. `RUNS=20 bench/forward/bench.sh` makes fewer runs than 200.
set -euo pipefail
. "$(dirname "$0")/../frame.sh"

take_sj

# One row of the first table.
compare() {
    local name=$1 file=$2 resending ways passed
    resending=$("$program" run --looks 0 --log < "$file" | sed '1,/^%%log2*$/d' | awk -f "$here/resent.awk")
    "$program" run --forward < "$file" > "$folder/forwarded"
    passed=$(awk '/^passed / { print $2 }' "$folder/forwarded")
    ways=$(awk -f "$here/ways.awk" "$folder/forwarded")
    echo "$name $resending $passed $ways" |
        awk '{ printf "| %s | %d | %d | %d | %d | 0 | %d |\n", $1, $2, $5, $3, $4, $6; if ($7 == "not") print "some ways are not told by the transcript" > "/dev/stderr" }'
}

printf '| File | Frames, resending | Frames, forwarding | Bytes resent | Most deliveries of a message, resending | Bytes resent, forwarding | Longest way of a message, forwarding |\n|---|---|---|---|---|---|---|\n'
compare agency "$top/examples/agency.sj"
for k in 1 2 5 10 20 50 100; do
    awk -v k="$k" -v m=10 -f "$here/files.awk" > "$folder/$k"
    compare "$k" "$folder/$k"
done

printf '\n| N | Sim, best ms | Sim, median ms | Forward, best ms | Forward, median ms | Forward to sim |\n|---|---|---|---|---|---|\n'
for n in 100 200 400 700 1000; do
    file=$folder/made_$n
    "$program" make "$n" > "$file"
    for words in start sim forward; do : > "$folder/$words"; done
    # in turn, so that both meet the same load of the machine
    for ((i = 0; i < runs; i++)); do
        run_on "$folder/empty" sim >> "$folder/start"
        run_on "$file" sim >> "$folder/sim"
        run_on "$file" run --forward >> "$folder/forward"
    done
    for words in start sim forward; do summary "$folder/$words"; done | paste -s -d ' ' |
        awk -v n="$n" '{
            printf "| %d | %.2f | %.2f | %.2f | %.2f | %.1f |\n", n, ($3 - $1) / 1000, ($4 - $2) / 1000, ($5 - $1) / 1000, ($6 - $2) / 1000, ($6 - $2) / ($4 - $2)
        }'
done
