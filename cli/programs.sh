#!/bin/bash
# Tries the words of the scripts with the programs themselves, on the examples: cli/programs.sh. The programs are built
# first where they aren't. The last line is `N passed, M failed`.
cd "$(dirname "$0")/.." || exit 2
for program in sj sjnet sjdraw sjwhy; do "./$program" --build || exit 2; done
folder=$(mktemp -d) || exit 2
trap 'rm -rf "$folder"' EXIT
passed=0
failed=0

# The call has that status and prints the text of that file, and says nothing on standard error.
prints() {
    local status=$1 text=$2 got
    shift 2
    "$@" >"$folder/out" 2>"$folder/said" </dev/null
    got=$?
    if [ "$got" -eq "$status" ] && cmp -s "$text" "$folder/out" && [ ! -s "$folder/said" ]; then
        passed=$((passed + 1))
    else
        failed=$((failed + 1))
        printf '%s: status %s, where %s is wanted, and\n%s\n' "$*" "$got" "$status" "$(cat "$folder/said")"
        diff "$text" "$folder/out"
    fi
}

# The same with the text itself.
says() {
    local status=$1
    printf '%s\n' "$2" >"$folder/text"
    shift 2
    prints "$status" "$folder/text" "$@"
}

# One line for each file, and JSON.
prints 0 examples/desk.txt ./sj run examples/desk.sj
prints 0 examples/desk.txt ./sj run --looks 5 --workers 2 examples/desk.sj
prints 0 examples/desk.txt ./sjnet run examples/desk.sj
prints 6 examples/blocked.txt ./sj sim examples/blocked.sj
prints 0 docs/agency.svg ./sjdraw docs/agency.log
says 5 'examples/first.sj: accepted parties 2 sessions 1
examples/refused.sj: check C5 at 8' ./sj check examples/first.sj examples/refused.sj
says 6 'forest no a b c' ./sj forest --strict examples/ring.sj
says 0 'examples/ring.sj: forest no a b c
examples/tree.sj: forest yes' ./sj forest examples/ring.sj examples/tree.sj
why='"words":"other action: the place begins with another action, or is empty"'
plain='"fault":null,"rule":null,"line":null,"column":null,"length":null,"words":null,"there":null,"mend":null,"wanted":null,"meant":null'
says 5 "{\"file\":\"examples/why/c06-sent.sj\",\"status\":5,\"answer\":\"check C6 at 3\",\"fault\":\"check\",\"rule\":\"C6\",\"line\":3,\"column\":null,\"length\":null,$why,\"there\":null,\"mend\":null,\"wanted\":null,\"meant\":null}" \
    ./sj check --json examples/why/c06-sent.sj
says 5 "{\"file\":\"examples/why/c06-sent.sj\",\"status\":5,\"answer\":\"check C6 at 3\",\"fault\":\"check\",\"rule\":\"C6\",\"line\":3,\"column\":26,\"length\":1,$why,\"there\":\"ahead of x is nothing; this statement wants \`!<..>\` first\",\"mend\":\"do what the place begins with, or put the item into both protocols\",\"wanted\":null,\"meant\":null}" \
    ./sjwhy --json examples/why/c06-sent.sj
says 4 "{\"file\":\"examples/why/p1-name.sj\",\"status\":4,\"answer\":\"syntax P1 at 1:7\",\"fault\":\"syntax\",\"rule\":\"P1\",\"line\":1,\"column\":7,\"length\":null,\"words\":\"not due: no file goes on so there\",\"there\":null,\"mend\":null,\"wanted\":null,\"meant\":null}" \
    ./sj check --json examples/why/p1-name.sj
says 0 "{\"file\":\"examples/tree.sj\",\"status\":0,\"answer\":\"forest yes\",$plain,\"forest\":\"yes\",\"left\":[]}" \
    ./sj forest --json examples/tree.sj
{ cat examples/why/c06-sent.txt && echo && cat examples/why/first.txt && echo; } |
    sed '1s|^|examples/why/c06-sent.sj: |; s|^accepted|examples/first.sj: accepted|' >"$folder/both"
prints 5 "$folder/both" ./sjwhy examples/why/c06-sent.sj examples/first.sj

# A log from a run, replayed from its file; a talk from two files.
./sj run --log examples/crossing.sj >"$folder/printed"
prints 0 "$folder/printed" ./sj replay --log examples/crossing.sj "$folder/printed"
prints 0 examples/crossing.txt ./sj replay examples/crossing.sj "$folder/printed"
printf 'take y\nclose y\n' >"$folder/lines"
printf 'took int 5\nok\ndone\n' >"$folder/answers"
prints 0 "$folder/answers" ./sj talk 1 examples/first.sj "$folder/lines"

# Called by a link, from elsewhere.
ln -s "$PWD/sj" "$folder/linked"
prints 0 "$PWD/examples/desk.txt" env -C / "$folder/linked" run "$PWD/examples/desk.sj"

# Each command and option of the list is one of the program: it isn't answered by its usage.
while read -r words; do
    # shellcheck disable=SC2086 # these are the words, one by one
    if ./crates/sj/out/sj $words <examples/first.sj | grep -q '^usage'; then
        failed=$((failed + 1))
        echo "the program doesn't know $words"
    else
        passed=$((passed + 1))
    fi
done <<END
$(awk -f cli/words.awk -f cli/calls.awk cli/words.txt)
END
echo "$passed passed, $failed failed"
[ "$failed" -eq 0 ]
