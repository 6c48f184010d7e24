#!/bin/sh
# Runs each example, and compares its output and its status with what they have to be; checks the slips of beginners, the files
# of editors/, the scripts of cli/ and the clients of clients/, too.
# usage: examples/run.sh [PROGRAM [WHY]], where PROGRAM is ./sj at the top of this repository if left out, and WHY ./sjwhy; all
# programs are then built first, and the words of the scripts are tried with them, and one call of each runs in a copy of the
# repository, too, where nothing is built, which takes some minutes. With PROGRAM alone, what `sjwhy` says isn't tried.
here=$(cd "$(dirname "$0")" && pwd) || exit 2
sj=${1:-$here/../sj}
why=${2:-}
if [ "$#" -eq 0 ]; then
    why=$here/../sjwhy
    "$sj" --build && "$why" --build || exit 2
fi
fresh=$#
passed=0
failed=0

# An example, its status, and the words of its command; what `forest` answers stands in NAME.forest.txt.
while read -r name status words; do
    text=$here/$name.txt
    [ "$words" != forest ] || text=$here/$name.forest.txt
    # shellcheck disable=SC2086 # these are the words, one by one
    got=$("$sj" $words <"$here/$name.sj"; echo "status $?")
    wanted=$(cat "$text"; echo "status $status")
    if [ "$got" = "$wanted" ]; then
        passed=$((passed + 1))
    else
        failed=$((failed + 1))
        printf '%s: sj %s should answer\n%s\nand answered\n%s\n' "$name" "$words" "$wanted" "$got"
    fi
done <<'END'
first 0 sim
desk 0 run
greeting 0 sim
choice 0 sim
loop 0 sim
agency 0 sim
resent 0 run
crossing 0 run
back 0 run
peer 0 run
relay 0 run
width 0 sim
opened 0 run
blocked 6 sim
ring 6 sim
ring 0 forest
tree 0 sim
tree 0 forest
limit 7 sim
refused 5 check
END

# The talk, by the script that shows it.
got=$(sh "$here/talk.sh" "$sj"; echo "status $?")
wanted=$(cat "$here/talk.txt"; echo "status 0")
if [ "$got" = "$wanted" ]; then
    passed=$((passed + 1))
else
    failed=$((failed + 1))
    printf 'talk.sh should print\n%s\nand printed\n%s\n' "$wanted" "$got"
fi

set -- "$here"/*.txt
if [ "$#" -ne $((passed + failed)) ]; then
    echo "of $# outputs $((passed + failed)) were compared"
    failed=$((failed + 1))
fi
# What `sjwhy` says of a file in why/, or of one of the examples; its first line and its status are those of `check`, and a
# picture, which is asked for with --svg, stands in NAME.svg.
for text in "$here"/why/*.txt "$here"/why/*.svg; do
    [ -n "$why" ] || break
    file=$(basename "$text")
    name=${file%.*}
    source=$here/why/$name.sj
    [ -f "$source" ] || source=$here/$name.sj
    word=
    [ "${file##*.}" = txt ] || word=--svg
    # shellcheck disable=SC2086 # no word is no argument
    got=$("$why" $word <"$source"; echo "status $?")
    checked=$("$sj" check <"$source"; echo "status $?")
    wanted=$(cat "$text"; echo "$checked" | tail -n 1)
    if [ "$got" = "$wanted" ] && { [ -n "$word" ] || [ "$(head -n 1 "$text")" = "$(echo "$checked" | head -n 1)" ]; }; then
        passed=$((passed + 1))
    else
        failed=$((failed + 1))
        printf '%s: sjwhy should say\n%s\nwhere check answers\n%s\nand said\n%s\n' "$file" "$wanted" "$checked" "$got"
    fi
done

# The slips of beginners, and what `sjwhy` says of them.
if [ -n "$why" ]; then
    sh "$here/slips.sh" "$why" || failed=$((failed + 1))
fi

# The words of the scripts: with a program that is a stub, and with the programs themselves.
bash "$here/../cli/test.sh" || failed=$((failed + 1))
if [ "$fresh" -eq 0 ] && ! bash "$here/../cli/programs.sh"; then
    failed=$((failed + 1))
fi

# The clients of a party by lines, with `sjseat` where it is built.
sh "$here/../clients/try.sh" || failed=$((failed + 1))

# The colours of editors.
if ! command -v python3 >/dev/null; then
    echo "editors/check.py wants python3, which isn't here: left out"
elif ! python3 -B "$here/../editors/check.py"; then
    failed=$((failed + 1))
fi

# A program, in a copy where nothing is built, on an input that comes late: its output, its status, and that it says how it is built.
in_copy() {
    input=$2
    text=$3
    wanted="$(cat "$text"; echo "status $4")"
    program=$1
    shift 4
    got=$({ sleep 3; cat "$input"; } | { "$copy/$program" "$@" 2>"$copy/said"; echo "status $?"; })
    if [ "$got" = "$wanted" ] && grep -q -e "/$program --build" "$copy/said"; then
        echo "a copy where nothing is built answers the same: $program $*"
    else
        failed=$((failed + 1))
        printf 'a copy where nothing is built answered to %s\n%s\n' "$program $*" "$got"
        cat "$copy/said"
    fi
}

if [ "$fresh" -eq 0 ]; then
    copy=$(mktemp -d) || exit 2
    trap 'rm -rf "$copy"' EXIT
    (cd "$here/.." && tar --exclude=out -cf - sj sjnet sjdraw sjwhy start.sh cli VERSION HANDLES crates.txt crates) | tar -xf - -C "$copy"
    in_copy sj "$here/blocked.sj" "$here/blocked.txt" 6 sim
    in_copy sjnet "$here/agency.sj" "$here/agency.txt" 0 run --looks 7
    in_copy sjdraw "$here/../docs/agency.log" "$here/../docs/agency.svg" 0
fi

echo "$passed passed, $failed failed"
[ "$failed" -eq 0 ]
