#!/bin/sh
# Draws the pictures of docs/: agency.svg from agency.log, a log of examples/agency.sj, and crossing.svg from the worked history
# of examples/crossing.sj, which is the stored input of sjdraw. With --run the agency is run anew first, and its log kept.
# usage: docs/pictures.sh [--run] [SJ [SJDRAW]], the programs at the top of this repository if left out
docs=$(cd "$(dirname "$0")" && pwd) || exit 2
run=0
if [ "${1:-}" = --run ]; then
    run=1
    shift
fi
sj=${1:-$docs/../sj}
sjdraw=${2:-$docs/../sjdraw}
if [ "$run" -eq 1 ]; then
    log=$("$sj" run --log <"$docs/../examples/agency.sj") || exit
    printf '%s\n' "$log" >"$docs/agency.log"
fi
"$sjdraw" <"$docs/agency.log" >"$docs/agency.svg" || exit
"$sjdraw" <"$docs/../crates/sjdraw/stdin" >"$docs/crossing.svg"
