#!/usr/bin/env bash
# Lets the toolchain try wrong bodies in each crate with public functions: `bench/plant/bench.sh [NAME..]`,
# all crates of crates.txt where none is named. Each crate gets `MINUTES` (10) and `MAX` (400) bodies at most.
# What a crate's run lists is kept in out/plant/NAME.txt, and a later call takes it from there where no file of
# the crate's src/ and specs/ is newer; `ANEW=1` tries all again. Prints a row a crate, and then each
# survivor: a wrong body that the contract lets through, or a function that has no clause.
set -euo pipefail
. "$(dirname "$0")/../frame.sh"
kept=$top/out/plant
mkdir -p "$kept"
names=("$@")
if ((${#names[@]} == 0)); then mapfile -t names < <(sed -n 's/^\([a-z_0-9]*\):.*/\1/p' "$top/crates.txt"); fi

# Whether the crate has a function that its users can call.
is_public() { grep -rqE '^ *pub (const )?fn ' "$top/crates/$1/src" && [[ -e $top/crates/$1/src/lib.rt ]]; }

# Whether what is kept of the crate is of the text that stands there.
is_kept() { [[ -z ${ANEW:-} && -s $kept/$1.txt && -z $(find "$top/crates/$1/src" "$top/crates/$1/specs" -newer "$kept/$1.txt" -type f 2> /dev/null | head -1) ]]; }

printf '| Crate | Functions | Bodies tried | Survivors | The same | Without a clause |\n|---|---|---|---|---|---|\n'
for name in "${names[@]}"; do
    is_public "$name" || continue
    if ! is_kept "$name"; then
        (cd "$top/crates/$name" && rt plant --minutes "${MINUTES:-10}" --max "${MAX:-400}" > "$kept/$name.new" 2> "$kept/$name.err") || true
        mv "$kept/$name.new" "$kept/$name.txt"
    fi
    tail -1 "$kept/$name.txt" | tr ' ' '\n' | awk -F = -v n="$name" '
        { v[$1] = $2 }
        END {
            tried = v["proves"] + v["same"] + v["refused"] + v["elsewhere"]
            printf "| %s | %d | %d | %d | %d | %d |\n", n, v["planted-in"], tried, v["proves"], v["same"], v["no-ensures"]
        }'
done
printf '\nSurvivors:\n'
for name in "${names[@]}"; do
    [[ -s $kept/$name.txt ]] && awk -v n="$name" '/^(proves|no-ensures|untested)/ { print n ": " $0 }' "$kept/$name.txt"
done
true
