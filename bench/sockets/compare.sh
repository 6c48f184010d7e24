#!/usr/bin/env bash
# Runs small generated files over sockets, and compares each transcript and status with those of the plain
# world, and with those over rings. `FILES=1000 bench/sockets/compare.sh` takes more files than 300.
set -euo pipefail
here=$(dirname "$0")
. "$here/../frame.sh"
files=${FILES:-300}

# What the program answers to the file, with its status behind it.
answer_of() {
    "$1" "$2" < "$folder/file" && echo "status 0" || echo "status $?"
}

"$top/sj" --build
"$top/sjnet" --build
sj=$top/crates/sj/out/sj
sjnet=$top/crates/sjnet/out/sjnet
refused=0
differ=0
for ((seed = 1; seed <= files; seed++)); do
    awk -v seed="$seed" -f "$here/files.awk" > "$folder/file"
    if ! "$sj" check < "$folder/file" > /dev/null; then
        refused=$((refused + 1))
        continue
    fi
    answer_of "$sj" sim > "$folder/wanted"
    answer_of "$sjnet" run > "$folder/got"
    answer_of "$sj" run > "$folder/rings"
    tail -n 1 "$folder/wanted" >> "$folder/statuses"
    for by in got rings; do
        if ! cmp -s "$folder/wanted" "$folder/$by"; then
            differ=$((differ + 1))
            echo "the file of seed $seed:"
            diff "$folder/wanted" "$folder/$by" || true
        fi
    done
done
echo "$files files, $refused of them refused; of the others"
sort "$folder/statuses" | uniq -c
echo "$differ answers differ"
[ "$differ" -eq 0 ]
