#!/usr/bin/env bash
# What must not compile: each case is put behind src/held.rt in a copy, and the check must answer the error that its first
# line names. Must-fail edits can't say this, since they must reach the prover.
set -eu
here=$(cd "$(dirname "$0")" && pwd)
root=$(cd "$here/../../.." && pwd)
copy=$(mktemp -d)
trap 'rm -rf "$copy"' EXIT
crates="sj_base sj_lang sj_semantics sj_table sj_rules sj_end"
for crate in $crates; do
    grep "^$crate:" "$root/crates.txt" >> "$copy/crates.txt"
    mkdir -p "$copy/crates/$crate"
    cp -r "$root/crates/$crate/src" "$root/crates/$crate/specs" "$copy/crates/$crate"
    if [ -d "$root/crates/$crate/proofs" ]; then cp -r "$root/crates/$crate/proofs" "$copy/crates/$crate"; fi
done
for case in "$here"/*.txt; do
    wanted=$(sed -n '1s,^// ,,p' "$case")
    cat "$root/crates/sj_end/src/held.rt" "$case" > "$copy/crates/sj_end/src/held.rt"
    told=$(cd "$copy/crates/sj_end" && rt check 2>&1 || true)
    if ! grep -q "src/held.rt:.*error\[$wanted\]" <<< "$told"; then
        echo "$(basename "$case"): not refused by $wanted"
        tail -5 <<< "$told"
        exit 1
    fi
    echo "$(basename "$case"): refused by $wanted"
done
