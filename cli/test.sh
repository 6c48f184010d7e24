#!/bin/bash
# Tries all that the scripts do, in a copy of them where stub.sh stands in for the programs: once built, and once with a
# toolchain that is a stub, too. The last line is `N passed, M failed`.
cli=$(CDPATH='' cd "$(dirname "$0")" && pwd) || exit 2
folder=$(mktemp -d) || exit 2
trap 'rm -rf "$folder"' EXIT
top="$folder/a copy"
passed=0
failed=0

# The copy: the scripts, and of crates what tells whether a program is built.
mkdir -p "$top" "$folder/tools" "$folder/none"
cp -R "$cli" "$cli"/../{sj,sjnet,sjdraw,sjwhy,start.sh,VERSION,crates.txt} "$top"
mkdir -p "$top"/crates/{sj,sjnet,sjdraw,sjwhy,sj_lang,sj_draw,sj_explain}/{src,specs}
for crate in "$top"/crates/*; do echo 'fn main() {}' >"$crate/src/main.rt"; done
touch -d '2020-01-01' "$top"/crates/*/src/main.rt

# What the calls read.
cd "$folder" || exit 2
echo good >good.sj
echo bad >bad.sj
echo ring >ring.sj
echo slip >slip.sj
echo turns >turns.sj
echo opens >opens.sj
echo blocks >blocks.sj
printf 'no newline' >open.sj
printf 'transcript\n%%%%log2\n1 a local\n' >printed
echo 'take x' >lines
cp good.sj 'odd "name".sj'
cp good.sj -- -odd.sj
mkdir a_folder

# The toolchain: `rt try -- WORDS` and `rt run` in crates/NAME, and `rt version`.
cat >"$folder/tools/rt" <<END
#!/bin/sh
case \$1 in
    version) cat "$top/cli/kit.txt" ;;
    try)
        shift 2
        sh "$cli/stub.sh" "\$(basename "\$PWD")" "\$@"
        status=\$?
        { echo "interpreter: none"; echo "run=ended status=\$status steps=1"; } >&2
        ;;
    run)
        mkdir -p out
        printf '#!/bin/sh\nexec sh "%s" %s "\$@"\n' "$cli/stub.sh" "\$(basename "\$PWD")" >out/"\$(basename "\$PWD")"
        chmod +x out/"\$(basename "\$PWD")"
        ;;
esac
END
mkdir "$folder/other"
cat >"$folder/other/rt" <<'END'
#!/bin/sh
case $1 in
    version) echo another ;;
    *) echo "it fails" >&2; exit 1 ;;
esac
END
chmod +x "$folder/tools/rt" "$folder/other/rt"
# a path without any toolchain
for tool in awk basename cat dirname find grep head mktemp readlink rm sed sh sort tail tr wc; do
    ln -s "$(command -v "$tool")" "$folder/none/$tool"
done
plain=$PATH
PATH=$folder/tools:$PATH

tell() {
    failed=$((failed + 1))
    printf '%s, %s: status %s, on standard output\n%s\nand on standard error\n%s\n' "$how" "$*" "$got" "$(cat out)" "$(cat said)"
}

# ends STATUS TEXT SAID CALL..: the call has that status, prints that text, and says that on standard error; SAID is a
# pattern of a part, and where it is empty nothing is said but that the program isn't built.
ends() {
    local status=$1 text=$2 said=$3
    shift 3
    "$@" >out 2>said </dev/null
    got=$?
    if [ "$got" -eq "$status" ] && [ "$(cat out)" = "$text" ] && said_is "$said"; then
        passed=$((passed + 1))
    else
        tell "$@"
        printf 'wanted: %s\n%s\nand %s\n' "$status" "$text" "$said"
    fi
}

said_is() {
    if [ -n "$1" ]; then
        grep -q -e "$1" said
    else
        [ "$(grep -vc 'so this call is answered by' said)" -eq 0 ]
    fi
}

# The same of a page: its first line, and a line that it has.
page() {
    local first=$1 line=$2
    shift 2
    "$@" >out 2>said </dev/null
    got=$?
    if [ "$got" -eq 0 ] && head -n 1 out | grep -q -e "^$first" && grep -q -e "$line" out && [ ! -s said ]; then
        passed=$((passed + 1))
    else
        tell "$@"
        printf 'wanted: %s, and %s\n' "$first" "$line"
    fi
}

reads() {
    local input=$1
    shift
    "$@" <"$input"
}

# The same on a terminal, of a part of all that is shown there.
terminal() {
    local status=$1 part=$2
    shift 2
    timeout 60 script -qec "$(printf '%q ' "$@")" /dev/null </dev/null >shown 2>&1
    got=$?
    tr -d '\r' <shown >out
    : >said
    if [ "$got" -eq "$status" ] && grep -q -e "$part" out; then
        passed=$((passed + 1))
    else
        tell "on a terminal, $*"
        printf 'wanted: %s, and %s\n' "$status" "$part"
    fi
}

# A call that says nothing on standard error, not even that the program isn't built.
nothing_said() {
    "$@" >out 2>said </dev/null
    got=$?
    if [ -s said ]; then tell "$@"; else passed=$((passed + 1)); fi
}

# Two lists of words, in any order.
same() {
    if [ "$(printf '%s\n' "$2" | sort -u)" = "$(printf '%s\n' "$3" | sort -u)" ]; then
        passed=$((passed + 1))
    else
        failed=$((failed + 1))
        printf '%s: the list has\n%s\nwhere there is\n%s\n' "$1" "$2" "$3"
    fi
}

. "$cli/cases.sh"
sj=$top/sj why=$top/sjwhy draw=$top/sjdraw net=$top/sjnet
how=unbuilt
cases
how="unbuilt, on what makes it so"
unbuilt_cases
for program in sj sjnet sjdraw sjwhy; do "$top/$program" --build 2>said || tell "$program" --build; done
how=built
cases
how="built, on what it stands"
built_cases
how="the list"
list_cases
echo "$passed passed, $failed failed"
[ "$failed" -eq 0 ]
