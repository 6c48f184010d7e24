#!/bin/sh
# Plays the customer of agency.sj line by line, and prints each line with its answer behind it, and the verdict.
# usage: examples/talk.sh [PROGRAM], where PROGRAM is ./sj at the top of this repository if left out; the status is its own
here=$(cd "$(dirname "$0")" && pwd) || exit 2
sj=${1:-$here/../sj}
lines=$(mktemp) || exit 2
answers=$(mktemp) || exit 2
trap 'rm -f "$lines" "$answers"' EXIT

# Paris is asked for, and behind a line that is refused Oslo, which the file's customer doesn't know of.
cat >"$lines" <<'END'
more x
send x "Paris"
take x
more x
send x 7
send x "Oslo"
take x
stop x
select x ACCEPT
send x "1 High Street"
take x
close x
END

# The customer is party 0, the first one of the file.
{ cat "$here/agency.sj"; echo '%%talk'; cat "$lines"; } | "$sj" talk 0 >"$answers"
status=$?
paste "$lines" "$answers" | awk -F '\t' '{ if ($1 != "") printf "%-24s%s\n", $1, $2; else print $2 }'
exit "$status"
