#!/bin/sh
# The slips of beginners: what `sjwhy` says of each, as the tests of crates/sj_explain_cases have it (src/*_slips.rt).
# usage: examples/slips.sh WHY; it ends with 1 where one differs.
here=$(cd "$(dirname "$0")" && pwd) || exit 2
why=$1
dir=$(mktemp -d) || exit 2
trap 'rm -rf "$dir"' EXIT
# each slip's file in NAME.sj, and its answer in NAME.txt
awk -v dir="$dir" '
    function plain(s) {
        gsub(/\\\\/, "\001", s)
        gsub(/\\"/, "\"", s)
        gsub(/\001/, "\\", s)
        return s
    }
    /^        name: "/ { name = $2; gsub(/[",]/, "", name); print name }
    /^        (source|answer): b"/ {
        out = dir "/" name ($1 == "source:" ? ".sj" : ".txt")
        sub(/^        (source|answer): b"/, "")
        inside = 1
    }
    inside && /^",$/ { close(out); inside = 0; next }
    inside && /[^\\]",$/ { sub(/",$/, ""); printf "%s", plain($0) > out; close(out); inside = 0; next }
    inside { print plain($0) > out }
' "$here"/../crates/sj_explain_cases/src/*_slips.rt >"$dir/names"
tried=0
failed=0
while read -r name; do
    tried=$((tried + 1))
    "$why" <"$dir/$name.sj" >"$dir/said"
    if ! cmp -s "$dir/said" "$dir/$name.txt"; then
        failed=$((failed + 1))
        printf 'the slip %s: sjwhy should say\n' "$name"
        cat "$dir/$name.txt"
        echo "and said"
        cat "$dir/said"
    fi
done <"$dir/names"
echo "$tried slips, $failed failed"
[ "$failed" -eq 0 ] && [ "$tried" -gt 0 ]
