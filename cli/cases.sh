# Of test.sh: the calls that it tries.

n='
'
done="accepted parties 2 sessions 1${n}${n}ends done: each party comes to its end"
told="check C5 at 8${n}not there: no live end, or no variable, has that name${n}${n}  8 | a bad end${n}    |   ^^^${n}${n}"
told="${told}there: no variable is \"known\" here${n}mend: use no end"

# These answer the same, built or not.
cases() {
    files_cases
    words_cases
    help_cases
    json_cases
    link_cases
    terminal_cases
}

files_cases() {
    ends 0 "sj run${n}good" '' "$sj" run good.sj
    ends 0 "sj run${n}good" '' reads good.sj "$sj" run
    ends 0 "sj run${n}good" '' reads good.sj "$sj" run -
    ends 6 "sj sim${n}blocks" '' "$sj" sim blocks.sj
    ends 0 "sj show${n}good" '' "$sj" show 'odd "name".sj'
    ends 0 "sj show${n}good" '' "$sj" show -- -odd.sj
    ends 0 "sjnet run${n}good" '' "$net" run good.sj
    ends 0 "sjdraw${n}good" '' "$draw" good.sj
    ends 0 "sjdraw${n}good" '' reads good.sj "$draw"
    ends 0 "accepted parties 2 sessions 1" '' "$sj" check good.sj
    ends 5 "check C5 at 8" '' "$sj" check bad.sj
    ends 5 "good.sj: accepted parties 2 sessions 1${n}bad.sj: check C5 at 8" '' "$sj" check good.sj bad.sj
    ends 2 "good.sj: accepted parties 2 sessions 1${n}bad.sj: check C5 at 8" 'there is no file none.sj' \
        "$sj" check none.sj good.sj bad.sj
    ends 0 "good.sj: forest yes${n}ring.sj: forest no a b" '' "$sj" forest good.sj ring.sj
    ends 5 "good.sj: $done${n}${n}bad.sj: $told" '' \
        "$why" good.sj bad.sj
    ends 5 "$told" '' "$why" bad.sj
    ends 5 "$told" '' reads bad.sj "$why"
    ends 2 '' 'there is no file none.sj' "$sj" run none.sj
    ends 2 '' 'a_folder is a folder' "$sj" run a_folder
    ends 0 "sj replay${n}good${n}%%log2${n}1 a local" '' "$sj" replay good.sj printed
    ends 0 "sj replay --log${n}no newline${n}%%log2${n}1 a local" '' "$sj" replay --log open.sj printed
    ends 0 "sj replay${n}good${n}%%log2${n}1 a local" '' reads printed "$sj" replay good.sj -
    ends 0 "sj talk 3${n}no newline${n}%%talk${n}take x" '' reads open.sj "$sj" talk 3 - lines
    ends 0 "sj talk 0${n}good${n}%%talk${n}take x" '' "$sj" talk 0 good.sj lines
    ends 0 "sj talk 15${n}good" '' "$sj" talk 15 good.sj
    ends 2 '' 'there is no file none.sj' "$sj" talk 0 good.sj none.sj
    ends 0 "sj make 3" '' "$sj" make 3
    ends 0 "sj big 1000" '' "$sj" big 1000
}

words_cases() {
    ends 0 "sj run --log${n}good" '' "$sj" run --log good.sj
    ends 0 "sj run --log${n}good" '' "$sj" --log run good.sj
    ends 0 "sj run --looks 7${n}good" '' "$sj" --looks 7 run good.sj
    ends 0 "sj run --looks 5 --workers 16${n}good" '' "$sj" run --looks=5 good.sj --workers 16
    ends 0 "sj run --forward${n}good" '' "$sj" run --forward good.sj
    ends 0 "sj run${n}good" '' reads good.sj "$sj" -- run
    ends 0 "sj make 999" '' "$sj" make -- 999
    ends 0 "forest yes" '' "$sj" forest --strict good.sj
    ends 6 "forest no a b" '' "$sj" forest --strict ring.sj
    ends 6 "forest opens 3" '' reads opens.sj "$sj" forest --strict
    ends 5 "check C5 at 8" '' "$sj" forest --strict bad.sj
    ends 6 "good.sj: forest yes${n}ring.sj: forest no a b" '' "$sj" --strict forest good.sj ring.sj
    ends 0 "$done${n}drawn" '' "$why" --svg good.sj
    ends 0 "$done${n}coloured" '' "$why" --colour good.sj
    ends 0 "$done" '' "$why" good.sj
    ends 1 '' '`chek` is no command; the nearest is `check`' "$sj" chek good.sj
    ends 1 '' '`rum` is no command; the nearest is `run`' "$net" rum good.sj
    ends 1 '' '`--lgo` is no option of run; the nearest is `--log`' "$sj" run --lgo good.sj
    ends 1 '' '`--log` is no option of sim' "$sj" sim --log good.sj
    ends 1 '' '`--svgs` is no option; the nearest is `--svg`' "$why" --svgs good.sj
    ends 1 '' 'a command is missing: check show' "$sj"
    ends 1 '' 'a number from 1 to 1000, and `1001` is none' "$sj" make 1001
    ends 1 '' 'a number from 1 to 1000, and `05` is none' "$sj" big 05
    ends 1 '' 'a number from 0 to 15, and `good.sj` is none' "$sj" talk good.sj
    ends 1 '' 'big wants a number from 1 to 1000' "$sj" big
    ends 1 '' '`--looks` wants a number from 0 to 1000000' "$sj" run --looks 1000001 good.sj
    ends 1 '' '`--workers` wants a value behind it' "$sj" run --workers
    ends 1 '' '`--log` stands twice' "$sj" run --log good.sj --log
    ends 1 '' '`--looks` stands twice' "$sj" run --looks 5 --looks=6 good.sj
    ends 1 '' '`--log` takes no value' "$sj" run --log=1 good.sj
    ends 1 '' '`--forward` stands alone' "$sj" run --forward --log good.sj
    ends 1 '' 'run reads one file, and `bad.sj` is one more' "$sj" run good.sj bad.sj
    ends 1 '' 'make reads no file' "$sj" make 3 good.sj
    ends 1 '' '`--svg` takes one file' "$why" --svg good.sj bad.sj
    ends 1 '' "don't go together" "$why" --svg --json good.sj
}

help_cases() {
    page 'sj: checks, plays and runs' '^  127  ' "$sj" --help
    page 'sj: checks, plays and runs' '^  replay \[FILE \[LOG\]\]' "$sj" -h
    page 'sj: checks, plays and runs' '^    --workers W ' "$sj" help
    page 'sj run: ' '^  sj run --log examples/crossing.sj' "$sj" help run
    page 'sj forest: ' '^  --strict ' "$sj" forest --help
    page 'sj big: ' 'N is from 1 to 1000' "$sj" big -h
    page 'sjnet run: ' '^  sjnet run ' "$net" help run
    page 'sjnet: the same as sj' '^  check ' "$net" --help
    page 'sjdraw: draws' '^  4    `line N is none' "$draw" --help
    page 'sjwhy: says why' '^  --colour ' "$why" help
    ends 1 '' '`rnu` is no command; the nearest is `run`' "$sj" help rnu
    for program in "$sj" "$net" "$draw" "$why"; do
        page "$(basename "$program") $(cat "$cli/../VERSION") (Porcharnica)" "$(cat "$cli/kit.txt")" "$program" --version
    done
}

json_cases() {
    local plain='"fault":null,"rule":null,"line":null,"column":null,"length":null,"words":null,"there":null,"mend":null,"wanted":null,"meant":null'
    local none='"wanted":null,"meant":null'
    local words='"words":"not there: no live end, or no variable, has that name"'
    local known='"status":5,"answer":"check C5 at 8","fault":"check","rule":"C5","line":8'
    local good='"status":0,"answer":"accepted parties 2 sessions 1",'$plain',"parties":2,"sessions":1'
    local bad="$known,\"column\":null,\"length\":null,$words,\"there\":null,\"mend\":null,$none"
    local gone=${plain/'"fault":null'/'"fault":"read fault"'}
    ends 0 "{\"file\":\"good.sj\",$good,\"ends\":null,\"warnings\":null}" '' "$sj" check --json good.sj
    ends 0 "{\"file\":\"odd \\\"name\\\".sj\",$good,\"ends\":null,\"warnings\":null}" '' "$sj" check --json 'odd "name".sj'
    ends 5 "{\"file\":\"-\",$bad}" '' reads bad.sj "$sj" check --json
    ends 5 "{\"file\":\"good.sj\",$good,\"ends\":null,\"warnings\":null}$n{\"file\":\"bad.sj\",$bad}" '' "$sj" check good.sj bad.sj --json
    ends 2 "{\"file\":\"none.sj\",\"status\":2,\"answer\":\"read fault\",$gone}" 'there is no file none.sj' \
        "$sj" check --json none.sj
    ends 6 "{\"file\":\"ring.sj\",\"status\":6,\"answer\":\"forest no a b\",$plain,\"forest\":\"no\",\"left\":[\"a\",\"b\"]}" '' \
        "$sj" forest --json --strict ring.sj
    ends 0 "{\"file\":\"good.sj\",\"status\":0,\"answer\":\"forest yes\",$plain,\"forest\":\"yes\",\"left\":[]}" '' \
        "$sj" forest --json good.sj
    ends 0 "{\"file\":\"opens.sj\",\"status\":0,\"answer\":\"forest opens 3\",${plain/'"line":null'/'"line":3'},\"forest\":\"opens\",\"left\":null}" '' \
        "$sj" forest --json opens.sj
    ends 5 "{\"file\":\"bad.sj\",$known,\"column\":3,\"length\":3,$words,\"there\":\"no variable is \\\"known\\\" here\",\"mend\":\"use no end\",$none}" '' \
        "$why" --json bad.sj
    ends 0 "{\"file\":\"good.sj\",$good,\"ends\":\"done\",\"warnings\":null}" '' "$why" --json good.sj
    ends 4 "{\"file\":\"slip.sj\",\"status\":4,\"answer\":\"syntax P1 at 2:3\",\"fault\":\"syntax\",\"rule\":\"P1\",\"line\":2,\"column\":3,\"length\":4,\"words\":\"not due: no file goes on so there\",\"there\":\"\`sned\` stands there\",\"mend\":\"put it right\",\"wanted\":[\"}\",\"send\"],\"meant\":\"\`send\`?\"}" '' \
        "$why" --json slip.sj
    ends 0 "{\"file\":\"turns.sj\",$good,\"ends\":\"done\",\"warnings\":[{\"line\":3,\"words\":\"cut\"},{\"line\":14,\"words\":\"a: b\"}]}" '' \
        "$why" --json turns.sj
}

# Links to the programs, near and far, one over another, and as --install makes them.
link_cases() {
    rm -rf home
    mkdir -p home/bin home/other
    ln -s "$top/sj" home/other/near
    ln -s ../other/near home/bin/far
    ends 0 "sj run${n}good" '' home/bin/far run good.sj
    rm home/bin/far
    ends 0 "$(for program in sj sjnet sjdraw sjwhy; do echo "$folder/home/other/$program -> $top/$program"; done)" \
        "isn't on the PATH" "$sj" --install home/other
    ends 0 "sj run${n}good" '' home/other/sj run good.sj
    ends 0 "sjdraw${n}good" '' home/other/sjdraw good.sj
    ends 0 "sj run${n}good" '' env CDPATH="$folder:/" home/other/sj run good.sj
    "$sj" --install=home/bin >out 2>said
    ends 0 "sj run${n}good" '' home/bin/sj run good.sj
    ends 0 "$(cat "$top/cli/made/sj.1")" '' cat home/share/man/man1/sjwhy.1
    ends 0 "$(cat "$top/cli/made/sj.bash")" '' cat home/share/bash-completion/completions/sjnet
    ends 0 "$(cat "$top/cli/made/_sj")" '' cat home/share/zsh/site-functions/_sj
    rm home/other/*
    echo mine >home/other/sjnet
    ends 127 "$(for program in sj sjdraw sjwhy; do echo "$folder/home/other/$program -> $top/$program"; done)" \
        'sjnet is there, and no link' "$sj" --install home/other
    ends 0 mine '' cat home/other/sjnet
    ends 127 '' 'there is no folder none.sj' "$sj" --install none.sj
}

# What is said where a human reads.
terminal_cases() {
    if ! command -v script >/dev/null || ! script -qec true /dev/null </dev/null >/dev/null 2>&1; then
        echo "terminals are tried by script(1), which isn't here: left out"
        return
    fi
    terminal 1 'no file is named, and standard input is a terminal' "$sj" run
    terminal 1 'no file is named, and standard input is a terminal' "$sj" check --json
    terminal 1 'no file is named, and standard input is a terminal' "$sj" talk 0
    terminal 1 'no file is named, and standard input is a terminal' "$why"
    terminal 1 'no file is named, and standard input is a terminal' "$draw"
    terminal 0 'by session and side, not by time; --log adds' "$sj" run good.sj
    terminal 0 'by session and side, not by time' "$sj" sim good.sj
    terminal 0 '^coloured' "$why" good.sj
    NO_COLOR=1 terminal 0 'its end' "$why" good.sj
    same "colours where NO_COLOR is set" "$(grep coloured out)" ''
    terminal 0 'sj make 3' "$sj" make 3
}

# A program that isn't built, where the toolchain isn't there, is another one, or fails.
unbuilt_cases() {
    ends 0 "sj run${n}good" "not built, so this call is answered by .* in some two minutes; .*sj --build" "$sj" run good.sj
    ends 5 "good.sj: accepted parties 2 sessions 1${n}bad.sj: check C5 at 8" "two minutes each" "$sj" check good.sj bad.sj
    PATH=$folder/none
    ends 127 '' "it is not built, and the command rt isn't here.*$(cat "$cli/kit.txt")" "$sj" run good.sj
    ends 127 '' "Rattle toolchain, which is Rust with contracts" "$why" bad.sj good.sj
    ends 127 '' "Rattle toolchain" "$sj" --build
    page 'sj: checks, plays and runs' '^  127  ' "$sj" --help
    PATH=$folder/other:$plain
    ends 127 '' "\`rt version\` here is another, where $(cat "$cli/kit.txt") is wanted" "$sj" run good.sj
    ends 127 '' "\`rt version\` here is another" "$sj" --build
    PATH=$folder/tools:$plain
}

# A built program stays so where a source changes on which it doesn't stand.
built_cases() {
    touch -d '+1 hour' "$top/crates/sj_draw/src/main.rt" "$top/crates/sj_lang/src/tests.rt" "$top/crates/sj_lang/README.md"
    nothing_said "$sj" run good.sj
    nothing_said "$sj" --build
    ends 0 "sjdraw${n}good" 'built, but older than its source crates/sj_draw/src/main.rt, so' "$draw" good.sj
    touch -d '+1 hour' "$top/crates/sj_lang/specs/Place.antt"
    ends 0 "sj run${n}good" 'built, but older than its source crates/sj_lang/specs/Place.antt, so' "$sj" run good.sj
    PATH=$folder/none
    ends 127 '' "it is built, but older than its source crates/sj_lang/specs/Place.antt, and the command rt isn't here" \
        "$sj" run good.sj
    PATH=$folder/tools:$plain
    touch -d '2020-01-01' "$top/crates/sj_lang/specs/Place.antt"
    nothing_said "$sj" check good.sj bad.sj
}

# The list of words is that of the programs, of the documents and of the files that are made of it.
list_cases() {
    local list=$cli/words.txt crates=$cli/../crates docs=$cli/../docs rule file
    same "commands" "$(sed -n '/^program sj /,/^program sjnet /s/^command \([a-z]*\) .*/\1/p' "$list")" \
        "$(grep -o 'b"[a-z]*"' "$crates/sj_command/src/readers.rt" | sed 's/^b"\(.*\)"$/\1/' | grep -vx -e true -e false)"
    same "commands, in the documents" "$(sed -n '/^program sj /,/^program sjnet /s/^command \([a-z]*\) .*/\1/p' "$list")" \
        "$(sed -n '/^| Words | What it prints/,/^$/s/^| `\([a-z]*\)[ `].*/\1/p' "$docs/FORMATS.md")"
    same "options" "$(sed -n '/^program sj /,/^program sjnet /s/^option --\([a-z]*\) .*/\1/p' "$list")" \
        "$(sed -n 's/.*\.long("\([a-z]*\)").*/\1/p' "$crates/sj_command/src/line.rt")"
    same "words of sjwhy" "$(sed -n '/^program sjwhy /,$s/^option \(--[a-z]*\) .*/\1/p' "$list")" \
        "$(grep -oh '"--[a-z]*"' "$crates/sj_explain/specs/Words.antt" | tr -d '"')"
    same "greatest numbers" "$(sed -n 's/^range .* \([0-9]*\)$/\1/p' "$list")" \
        "$(sed -n 's/^const \(MOST\|LAST\)_[A-Z]*: u32 = \([0-9_]*\);/\2/p' "$crates/sj_command/src/counts.rt" | tr -d _)"
    same "statuses" "$(sed -n '1,/^program /s/^answer \([0-9]*\) .*/\1/p' "$list")" \
        "$(sed -n '/^| Status | Text | Comes/,/^$/s/^| \([0-9, ]*\) |.*/\1/p' "$docs/FORMATS.md" | tr ',' '\n' | tr -d ' ')"
    for file in "$cli"/../examples/why/[cp][0-9]*.txt; do
        rule=$(sed -n '1s/^[a-z]* \([A-Z0-9]*\) .*/\1/p' "$file")
        same "the words of $rule" "$(sed -n "s/^rule $rule | //p" "$list")" "$(sed -n 2p "$file")"
    done
    "$cli/make.sh" made || exit 2
    for file in made/*; do
        same "cli/$file, as make.sh writes it" "$(cat "$file")" "$(cat "$cli/$file")"
    done
    same "the toolchain" "$(grep -o 'rattle-kit-[^`]*' "$cli/../README.md" | head -n 1)" "$(cat "$cli/kit.txt")"
    same "words that bash completes" "$(completed sj run --)" "--build${n}--forward${n}--help${n}--install${n}--log${n}--looks${n}--version${n}--workers"
    same "commands that bash completes" "$(completed sjnet fo)" forest
    same "files that bash completes" "$(completed sj run goo)" good.sj
    same "words of sjwhy that bash completes" "$(completed sjwhy --s)" --svg
}

# What bash puts in place of the last word.
completed() {
    (
        . "$cli/made/sj.bash"
        COMP_WORDS=("$@") COMP_CWORD=$(($# - 1))
        _sj
        printf '%s\n' "${COMPREPLY[@]}" | sort -u
    )
}
