#!/usr/bin/env bash
# Times the reading of protocols: builds crates/bench_files once, writes texts of three sizes and
# four kinds, and prints the best and the median time of many runs on each, beyond those on an empty
# text. `RUNS=20 bench/protocols/bench.sh` makes fewer runs than 200.
set -euo pipefail
. "$(dirname "$0")/../frame.sh"

# Up to 256 protocols of about 250 bytes, each with 48 labels that stand nowhere else.
words() {
    awk -v size="$1" 'BEGIN {
        letters = "abcdefghijklmnopqrstuvwxyzABCDEFGHIJKLMNOPQRSTUVWXYZ_"
        for (p = 0; p < 256; p++) {
            line = "protocol p" p " { begin"
            for (c = 0; c < 3; c++) {
                arms = ""
                for (l = 0; l < 16; l++) {
                    n++
                    word = substr(letters, n % 53 + 1, 1) substr(letters, int(n / 53) % 53 + 1, 1) int(n / 2809)
                    arms = arms (l ? "," : "") word ":"
                }
                line = line ".!{" arms "}"
            }
            line = line " }\n"
            if (used + length(line) > size) break
            printf "%s", line
            used += length(line)
        }
        while (used < size) { printf " "; used++ }
    }'
}

# One protocol with as many words as fit: the shortest ones, 16 in a choice.
dense() {
    awk -v size="$1" 'BEGIN {
        letters = "abcdefghijklmnopqrstuvwxyzABCDEFGHIJKLMNOPQRSTUVWXYZ_"
        bytes = letters "0123456789"
        head = "protocol p { begin"
        printf "%s", head
        used = length(head)
        while (1) {
            arms = ""
            for (l = 0; l < 16; l++) {
                do {
                    m = n++
                    word = substr(letters, m % 53 + 1, 1)
                    for (m = int(m / 53); m > 0; m = int((m - 1) / 63)) word = word substr(bytes, (m - 1) % 63 + 1, 1)
                } while (word ~ /^(p|if|to|int|let|not)$/)
                arms = arms (l ? "," : "") word ":"
            }
            item = ".!{" arms "}"
            if (used + length(item) + 2 > size) break
            printf "%s", item
            used += length(item)
        }
        printf " }"
        for (used += 2; used < size; used++) printf " "
    }'
}

# One protocol of 1,024 items, each as long as the size asks.
items() {
    awk -v size="$1" 'BEGIN {
        printf "protocol p { begin"
        used = 18
        label = ""
        while (length(label) < size / 1024 - 6) label = label "L"
        for (i = 0; i < 1024; i++) { item = (i % 2 ? ".!{" : ".?{") label ":}"; printf "%s", item; used += length(item) }
        printf " }"
        for (used += 2; used < size; used++) printf " "
    }'
}

# A comment of about 50 bytes behind each token.
comments() {
    awk -v size="$1" 'BEGIN {
        tokens = split("protocol p { begin . ! < int > }", token, " ")
        while (1) {
            text = ""
            for (t = 1; t <= tokens; t++) text = text token[t] " // a remark that says nothing of use to a reader\n"
            if (used + length(text) > size) break
            printf "%s", text
            used += length(text)
        }
        while (used < size) { printf " "; used++ }
    }'
}

(cd "$top/crates/bench_files" && rt run < /dev/null > /dev/null)
program=$top/crates/bench_files/out/bench_files
printf '| Text | Bytes | Protocols | Best ms | Median ms |\n|---|---|---|---|---|\n'
for kind in words dense items comments; do
    for size in 16384 32768 65536; do
        file=$folder/$kind.$size
        "$kind" "$size" > "$file"
        read -r best median <<< "$(times_on "$file")"
        read -r protocols _ <<< "$("$program" < "$file")"
        printf '| %s | %d | %d | %s | %s |\n' "$kind" "$(wc -c < "$file")" "$protocols" "$best" "$median"
    done
done
