# What the scripts of bench/ share; each reads it at its head, and one that times a program sets `program`.
runs=${RUNS:-200}
top=$(cd "$(dirname "${BASH_SOURCE[0]}")/.." && pwd)
# the folder of the script that reads this
here=$(cd "$(dirname "${BASH_SOURCE[1]}")" && pwd)
folder=$(mktemp -d)
trap 'rm -rf "$folder"' EXIT
: > "$folder/empty"

# Builds `sj` where it isn't, and has it be the program.
take_sj() {
    "$top/sj" --build
    program=$top/crates/sj/out/sj
}

# The microseconds of that command.
micros_of() {
    local before=$EPOCHREALTIME
    "$@" > /dev/null
    local after=$EPOCHREALTIME
    echo $((${after/[.,]/} - ${before/[.,]/}))
}

# The microseconds of one run on that file, with the words behind it.
run_on() {
    micros_of "$program" "${@:2}" < "$1"
}

# The best and the median of the numbers in the file.
summary() {
    sort -n "$1" | awk '{ t[NR] = $1 } END { print t[1], t[int((NR + 1) / 2)] }'
}

# The best and the median milliseconds of the runs on that file, with the words behind it, beyond
# those on an empty file.
times_on() {
    local i times
    : > "$folder/start_times"
    : > "$folder/times"
    # in turn, so that both meet the same load of the machine
    for ((i = 0; i < runs; i++)); do
        run_on "$folder/empty" "${@:2}" >> "$folder/start_times"
        run_on "$@" >> "$folder/times"
    done
    for times in start_times times; do summary "$folder/$times"; done | paste -s -d ' ' |
        awk '{ printf "%.2f %.2f\n", ($3 - $1) / 1000, ($4 - $2) / 1000 }'
}

# The median peak of resident memory of 21 runs on that file, with the words behind it, in KiB.
peak_on() {
    local i
    : > "$folder/peaks"
    for ((i = 0; i < 21; i++)); do
        /usr/bin/time -q -f %M -o "$folder/peak" "$program" "${@:2}" < "$1" > /dev/null
        cat "$folder/peak" >> "$folder/peaks"
    done
    summary "$folder/peaks" | awk '{ print $2 }'
}
