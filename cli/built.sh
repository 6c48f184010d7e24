# Of start.sh: whether the program is built, how it is, and what answers a call where it isn't.
# It sets `built`, the program, and `newer`, the first source of it that was changed since, of the crates on which it
# stands by crates.txt; tests are no part of it, and so is what stands beside it.

# what a call without proofs takes, and in processor time the proofs of all below
case $name in
    sjdraw) call="half a minute" proofs="five minutes" ;;
    *) call="two minutes" proofs="50 minutes" ;;
esac
wanted=$(cat "$cli/kit.txt")

# The crates on which the program stands, and it, one a line.
below() {
    awk -F '[: ]+' -v top="$name" '
        { used[$1] = ""; for (i = 2; i <= NF; i++) used[$1] = used[$1] " " $i }
        END {
            all[n = 1] = top
            seen[top] = 1
            for (k = 1; k <= n; k++) {
                m = split(used[all[k]], next_ones, " ")
                for (i = 1; i <= m; i++)
                    if (!(next_ones[i] in seen) && next_ones[i] in used) {
                        seen[next_ones[i]] = 1
                        all[++n] = next_ones[i]
                    }
            }
            for (k = 1; k <= n; k++)
                print all[k]
        }' "$here/crates.txt"
}

find_built() {
    built=$here/crates/$name/out/$name
    newer=
    [ -x "$built" ] || return 0
    # shellcheck disable=SC2046 # names of crates are words
    newer=$(cd "$here/crates" && find $(below | sed 's|.*|&/src &/specs|') \
        -type f ! -name '*tests.rt' -newer "$built" 2>/dev/null | head -n 1)
}

is_ready() {
    [ -x "$built" ] && [ -z "$newer" ]
}

# Ends the call where the toolchain isn't there.
need_toolchain() {
    if ! command -v rt >/dev/null; then
        echo "$called: it is $1, and the command rt isn't here: that of the Rattle toolchain, which is Rust with contracts." \
            "It proves, builds and runs what stands in crates/; wanted is the one whose \`rt version\` is $wanted" >&2
        exit 127
    fi
}

# How the program is, in words.
how_built() {
    if [ -n "$newer" ]; then
        echo "built, but older than its source crates/$newer"
    else
        echo "not built"
    fi
}

# Says of another toolchain than the one that proved all that it is another.
say_toolchain() {
    has=$(rt version 2>/dev/null)
    [ "$has" = "$wanted" ] || echo "$called: \`rt version\` here is ${has:-nothing}, where $wanted is wanted" >&2
}

build() {
    is_ready && return 0
    need_toolchain "$(how_built)"
    say_toolchain
    rm -f "$built"
    echo "$name: proving all that it stands on and building it, which takes some $proofs of processor time the first time" >&2
    log=$(cd "$here/crates/$name" && rt run </dev/null 2>&1)
    if [ -x "$built" ]; then
        echo "$name: built" >&2
        return 0
    fi
    printf '%s\n' "$log" >&2
    exit 127
}

# Runs the program without proofs on standard input, with its words behind the name. `folder` is for what is between.
try_run() {
    # the toolchain takes an input that is silent for two seconds as ended, so what the program would read is read here
    if [ "$reads" -eq 1 ]; then
        head -c 67108865 >"$folder/input" || exit 127
        if [ "$name" = sjdraw ] && [ "$(wc -c <"$folder/input")" -gt 67108864 ]; then
            echo "$name: this input is too long for a run without proofs" >&2
            return 127
        fi
    else
        : >"$folder/input"
    fi
    (cd "$here/crates/$name" && rt try -- "$@" <"$folder/input" 2>"$folder/said")
    # where the program itself ended, its status is told in what the toolchain says
    ended=$(sed -n 's/^run=ended status=\([0-9]*\) .*/\1/p' "$folder/said")
    if [ -z "$ended" ]; then
        cat "$folder/said" >&2
        say_toolchain
        return 127
    fi
    grep -vE '^(interpreter|checked|races|run)[:=]' "$folder/said" >&2
    return "$ended"
}
