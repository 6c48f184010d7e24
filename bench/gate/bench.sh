#!/usr/bin/env bash
# Says what the gate costs: runs `rt ci` (or `rt ci NAME..`) and looks once a second at the checks that it started, and prints
# for each crate the seconds of processor time of its own check, of its tests', and of its edits'. What the gate itself says goes
# to the error stream, and its status is the script's. Only what is done anew is counted: what an earlier run proved costs nothing.
# Behind the table stand the edits whose refusal says little of a contract.
set -euo pipefail
. "$(dirname "$0")/../frame.sh"

# Whether the process was started by this gate.
is_own() {
    local at=$1
    while [ "${at:-0}" -gt 1 ]; do
        [ "$at" != "$gate" ] || return 0
        at=$(sed -E 's/^.*\) . ([0-9]+) .*/\1/' "/proc/$at/stat")
    done
    return 1
}

# A line for each check that runs: what tells the process from others, the crate, what is checked, and the ticks that it has used.
look() {
    local pid words crate kind
    for pid in $(pgrep -x rattle); do
        is_own "$pid" || continue
        words=$(tr '\0' ' ' < "/proc/$pid/cmdline") || continue
        crate=$(sed -nE 's/.*--crate-name ([a-z0-9_]+) .*/\1/p' <<< "$words")
        [ -n "$crate" ] || continue
        case "$(readlink "/proc/$pid/cwd") $words" in
        */rt-edit-*) kind=edits ;;
        *" --test "*) kind=tests ;;
        *) kind=own ;;
        esac
        # behind the name in brackets: the start of the process is the 20th field, its own ticks the 12th and 13th
        sed -E 's/^.*\) //' "/proc/$pid/stat" | awk -v p="$pid" -v c="$crate" -v k="$kind" '{ print p "-" $20, c, k, $12 + $13 }' || continue
    done 2> "$folder/gone"
}

(cd "$top" && rt ci "$@") > >(tee "$folder/said" >&2) 2>&1 &
gate=$!
while kill -0 "$gate" 2> "$folder/gone"; do
    look >> "$folder/looks"
    sleep 1
done
status=0
wait "$gate" || status=$?
awk -v tick="$(getconf CLK_TCK)" '
    { crate[$1] = $2; kind[$1] = $3; used[$1] = $4 }
    END {
        for (p in used) { spent[crate[p], kind[p]] += used[p] / tick; names[crate[p]] }
        for (c in names) {
            printf "| %s | %d | %d | %d | %d |\n", c, spent[c, "own"], spent[c, "tests"], spent[c, "edits"], spent[c, "own"] + spent[c, "tests"] + spent[c, "edits"]
            own += spent[c, "own"]; tests += spent[c, "tests"]; edits += spent[c, "edits"]
        }
        printf "| all | %d | %d | %d | %d |\n", own, tests, edits, own + tests + edits
    }' "$folder/looks" | sort -t '|' -k 6,6nr |
    (printf '| Crate | Own check, s | Its tests, s | Its edits, s | Sum, s |\n|---|---|---|---|---|\n' && cat)
printf '\nEdits that were refused for names alone, or by a limit of the prover, or not at all:\n'
grep -E 'must-fail [^ ]+: (NOT |BAD |refused, as it must be \(only)' "$folder/said" | cut -c 1-200 || echo none
exit "$status"
