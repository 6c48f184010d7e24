#!/usr/bin/env bash
# Times the reading of whole files: builds crates/bench_files once, writes files of three sizes and
# five kinds, and prints the best and the median time of many runs on each, beyond those on an empty
# file. `RUNS=20 bench/files/bench.sh` makes fewer runs than 200.
set -euo pipefail
. "$(dirname "$0")/../frame.sh"

# One party of short statements.
short() {
    awk -v size="$1" 'BEGIN {
        printf "party a{"
        for (used = 8; used + 8 <= size - 1; used += 8) printf "close x;"
        printf "}"
        for (used++; used < size; used++) printf " "
    }'
}

# One party of statements with an expression each, as deep as may be.
deep() {
    awk -v size="$1" 'BEGIN {
        open = close_ = ""
        for (d = 0; d < 32; d++) { open = open "("; close_ = close_ ")" }
        statement = "send x " open "1" close_ ";"
        printf "party a{"
        for (used = 8; used + length(statement) <= size - 1; used += length(statement)) printf "%s", statement
        printf "}"
        for (used++; used < size; used++) printf " "
    }'
}

# One party of statements with an expression of 256 operands each.
long() {
    awk -v size="$1" 'BEGIN {
        sum = "1"
        for (o = 1; o < 256; o++) sum = sum "+1"
        statement = "send x " sum ";"
        printf "party a{"
        for (used = 8; used + length(statement) <= size - 1; used += length(statement)) printf "%s", statement
        printf "}"
        for (used++; used < size; used++) printf " "
    }'
}

# One party of statements with a new word each, the shortest ones.
words() {
    awk -v size="$1" 'BEGIN {
        letters = "abcdefghijklmnopqrstuvwxyzABCDEFGHIJKLMNOPQRSTUVWXYZ_"
        bytes = letters "0123456789"
        printf "party a{"
        used = 8
        while (1) {
            do {
                m = n++
                word = substr(letters, m % 53 + 1, 1)
                for (m = int(m / 53); m > 0; m = int((m - 1) / 63)) word = word substr(bytes, (m - 1) % 63 + 1, 1)
            } while (word ~ /^(if|to|int|let|not)$/)
            statement = "close " word ";"
            if (used + length(statement) > size - 1) break
            printf "%s", statement
            used += length(statement)
        }
        printf "}"
        for (used++; used < size; used++) printf " "
    }'
}

# One party of blocks in blocks, 32 deep, with texts that stand nowhere else.
blocks() {
    awk -v size="$1" 'BEGIN {
        printf "party a{"
        used = 8
        while (1) {
            text = ""
            for (d = 0; d < 32; d++) text = text "inwhile x{"
            text = text "send x \"" n++ "\";"
            for (d = 0; d < 32; d++) text = text "}"
            if (used + length(text) > size - 1) break
            printf "%s", text
            used += length(text)
        }
        printf "}"
        for (used++; used < size; used++) printf " "
    }'
}

(cd "$top/crates/bench_files" && rt run < /dev/null > /dev/null)
program=$top/crates/bench_files/out/bench_files
printf '| File | Bytes | Best ms | Median ms |\n|---|---|---|---|\n'
for kind in short deep long words blocks; do
    for size in 16384 32768 65536; do
        file=$folder/$kind.$size
        "$kind" "$size" > "$file"
        read -r best median <<< "$(times_on "$file")"
        printf '| %s | %d | %s | %s |\n' "$kind" "$(wc -c < "$file")" "$best" "$median"
    done
done
