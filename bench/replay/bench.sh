#!/usr/bin/env bash
# Times `sj replay` and `sj replay --log`, and measures their memory: builds `sj` once, lets `run --log` write
# logs of up to 16 MiB, and prints the best and the median time of many runs on each, beyond those on a source
# with an empty file and an empty log, and the peak of resident memory. `RUNS=5 bench/replay/bench.sh` makes
# fewer runs than 20.
set -euo pipefail
RUNS=${RUNS:-20}
. "$(dirname "$0")/../frame.sh"

take_sj
printf '%%%%log\n' > "$folder/empty"
printf '| Turns | Events | Bytes | Replay, best ms | Replay, median ms | With the log, best ms | With the log, median ms | Nanoseconds an event | Peak KiB | Peak to bytes |\n|---|---|---|---|---|---|---|---|---|---|\n'
for turns in 100 250 500 999; do
    file=$folder/$turns
    awk -v turns="$turns" -f "$here/files.awk" > "$file.sj"
    { cat "$file.sj"; "$program" run --log < "$file.sj" | sed -n '/^%%log$/,$p'; } > "$file"
    "$program" run < "$file.sj" > "$file.transcript"
    "$program" replay < "$file" | cmp - "$file.transcript"
    events=$(sed '1,/^%%log$/d' "$file" | wc -l)
    bytes=$(wc -c < "$file")
    alone=$(times_on "$file" replay)
    logged=$(times_on "$file" replay --log)
    peak=$(peak_on "$file" replay --log)
    echo "$turns $events $bytes $alone $logged $peak" |
        awk '{ printf "| %d | %d | %d | %.1f | %.1f | %.1f | %.1f | %.0f | %d | %.1f |\n", $1, $2, $3, $4, $5, $6, $7, 1000000 * $6 / $2, $8, 1024 * $8 / $3 }'
done
