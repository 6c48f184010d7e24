#!/usr/bin/env bash
# Runs generated files on threads: builds `sj` once, writes accepted files, and compares what `sj run`
# prints of each with what `sj sim` prints, and their statuses, for several numbers of looks. Then it runs
# two examples over and over. It prints how many files and runs there were, and ends with 1 where one
# differs. `FILES=20 AGAIN=100 bench/threads/bench.sh` makes fewer files than 300, and fewer runs of an
# example than 1,000.
set -euo pipefail
. "$here/../frame.sh"
files=${FILES:-300}
again=${AGAIN:-1000}

take_sj
wrong=0

# Runs the file with these words, and compares the text and the status with those of `sim`.
compare() {
    local status=0
    "$program" run "${@:2}" < "$1" > "$folder/run" || status=$?
    if [ "$status" -ne "$wanted" ] || ! cmp -s "$folder/run" "$folder/sim"; then
        wrong=$((wrong + 1))
        cp "$1" "$folder/wrong"
        echo "run ${*:2} answers $status, and sim $wanted:" && cat "$folder/wrong"
    fi >&2
}

# Plays the file by `sim`.
simulate() {
    wanted=0
    "$program" sim < "$1" > "$folder/sim" || wanted=$?
}

done=0 blocked=0 other=0 runs=0 messages=0 handed=0
for ((number = 1; number <= files; number++)); do
    awk -v number="$number" -f "$here/files.awk" > "$folder/file"
    simulate "$folder/file"
    case $wanted in
        0) done=$((done + 1)) ;;
        6) blocked=$((blocked + 1)) ;;
        *) other=$((other + 1)) ;;
    esac
    messages=$((messages + $(grep -c '^[0-9]' "$folder/sim" || true)))
    handed=$((handed + $(grep -c '^[0-9].* session ' "$folder/sim" || true)))
    for looks in 0 1 1000 100000; do
        compare "$folder/file" --looks "$looks"
        runs=$((runs + 1))
    done
done
printf '| Files | Done | Blocked | Other | Messages | Ends delegated | Runs | Other answers |\n|---|---|---|---|---|---|---|---|\n'
printf '| %d | %d | %d | %d | %d | %d | %d | %d |\n\n' "$files" "$done" "$blocked" "$other" "$messages" "$handed" "$runs" "$wrong"

printf '| Example | Runs | Other answers | Histories |\n|---|---|---|---|\n'
for name in agency crossing; do
    before=$wrong
    simulate "$top/examples/$name.sj"
    for ((i = 0; i < again; i++)); do
        compare "$top/examples/$name.sj"
        "$program" run --log < "$top/examples/$name.sj" | sed '1,/^%%log$/d' | cksum >> "$folder/logs"
    done
    printf '| %s | %d | %d | %d |\n' "$name" "$again" "$((wrong - before))" "$(sort -u "$folder/logs" | wc -l)"
    rm "$folder/logs"
done
[ "$((wrong + other))" -eq 0 ]
