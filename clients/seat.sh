#!/bin/sh
# A party of a file, played by a shell script over the program `sjseat`: one that asks for something and prints the answer. To copy.
# usage: seat.sh FILE PARTY END TEXT, where END begins with the sending of a text and goes on with the taking of an answer. SJSEAT
# says where the program is, if it isn't on the path. SEAT has its words after the party, as `--run visit --server 127.0.0.1:6379`;
# without it they are `--local`. Over a server the script may be killed at any time and started again.
set -u
folder=$(mktemp -d) || exit 2
trap 'rm -rf "$folder"' EXIT
mkfifo "$folder/lines" "$folder/answers" || exit 2
# shellcheck disable=SC2086 # these are words, one by one
"${SJSEAT:-sjseat}" "$2" ${SEAT:---local} <"$folder/lines" >"$folder/answers" &
exec 3>"$folder/lines" 4<"$folder/answers"

# The next answer, in $answer. The status is 1 where a line was refused, 2 where it waits, 3 where nothing is done any more.
answered() {
    IFS= read -r answer <&4 || exit 2
    case $answer in
        refused*) return 1 ;;
        waiting) return 2 ;;
        again* | go | fine | took* | opened* | ready | not* | ends* | ahead*) return 0 ;;
        *) return 3 ;;
    esac
}

# Asks for a line, again as long as it waits.
ask() {
    while printf '%s\n' "$1" >&3; answered; said=$?; [ "$said" -eq 2 ]; do :; done
    return "$said"
}

# No further line: prints what comes yet. The status is the program's.
leave() {
    exec 3>&-
    cat <&4
    wait $!
}

{ cat "$1"; printf '\n%%%%talk\n'; } >&3
# what a process before this one did, and then `go`
told=0
while answered && [ "$answer" != go ]; do
    echo "$answer"
    told=$((told + 1))
done
if [ "$answer" != go ]; then
    echo "not played: $answer"
elif { [ "$told" -gt 0 ] || ask "send $3 \"$4\""; } && { [ "$told" -gt 1 ] || ask "take $3"; }; then
    [ "$told" -gt 1 ] || echo "${answer#took "$3" }"
    [ "$told" -gt 2 ] || ask "close $3" || echo "not closed: $answer"
else
    echo "not done: $answer"
fi
leave
