# Of start.sh: the program on its files, or on standard input.

# Runs the program on standard input.
run_program() {
    # shellcheck disable=SC2086 # these are the words, one by one
    if is_ready; then
        "$built" $words
    else
        try_run $words
    fi
}

# Whether that can be read as a file, or stands for standard input; says why it can't.
need_file() {
    [ "$1" != - ] || return 0
    if [ -d "$1" ]; then
        echo "$called: $1 is a folder" >&2
    elif [ ! -e "$1" ]; then
        echo "$called: there is no file $1" >&2
    elif [ ! -r "$1" ]; then
        echo "$called: $1 can't be read" >&2
    else
        return 0
    fi
    return 2
}

# The file, with a newline behind a last line that has none.
whole_lines() {
    cat -- "$1" && [ -z "$(tail -c 1 -- "$1")" ] || echo
}

# A file, and behind it the log or the lines that stand in another one.
joined() {
    whole_lines "$1"
    if [ "$page" = replay ]; then
        sed -n '/^%%log2\{0,1\}$/,$p' <"$2"
    else
        echo '%%talk'
        cat -- "$2"
    fi
}

# Says once that the program isn't built, and has a folder for what is between.
prepare() {
    folder=$(mktemp -d) || exit 127
    trap 'rm -rf "$folder"' EXIT
    trap 'exit 130' INT
    trap 'exit 143' TERM
    is_ready && return 0
    need_toolchain "$(how_built)"
    echo "$called: $(how_built), so this call is answered by the toolchain's run without proofs, in some $call$1;" \
        "$called --build proves and builds it in some $proofs of processor time, and then it starts at once" >&2
}

# The answer to a file among others, with the file's name, or as JSON. The status is that of the answer.
answer_one() {
    if ! need_file "$1"; then
        echo "read fault" >"$folder/answer"
        ended=2
        [ -n "$json" ] || return 2
    elif [ "$1" = - ]; then
        run_program >"$folder/answer"
        ended=$?
    else
        run_program <"$1" >"$folder/answer"
        ended=$?
    fi
    [ "$ended" -ne 127 ] || return 127
    if [ -n "$strict" ] && [ "$ended" -eq 0 ] && [ "$(cat "$folder/answer")" != "forest yes" ]; then
        ended=6
    fi
    if [ -n "$json" ]; then
        LC_ALL=C awk -f "$cli/words.awk" -f "$cli/json.awk" "$cli/words.txt" "$ended" "$1" <"$folder/answer" || return 127
    elif [ -n "$many" ]; then
        printf '%s: ' "$1"
        cat "$folder/answer"
        [ "$name" != sjwhy ] || echo
    else
        cat "$folder/answer"
    fi
    return "$ended"
}

# The answers to all files; the status is the first that isn't 0.
answer_all() {
    many=
    case $page in
        check | forest) ;;
        *) [ "$name" = sjwhy ] || { answer_plain "$@"; exit; } ;;
    esac
    if [ "$#" -le 1 ] && [ -z "$json$strict" ]; then
        answer_plain "$@"
        exit
    fi
    [ "$#" -gt 0 ] || set -- -
    [ "$#" -le 1 ] || many=1
    if [ -n "$many" ]; then prepare " each"; else prepare; fi
    first=0
    for file do
        answer_one "$file"
        ended=$?
        [ "$first" -ne 0 ] || first=$ended
    done
    exit "$first"
}

# The answer to one input, as the program gives it.
answer_plain() {
    for file do
        need_file "$file" || exit
    done
    if [ "$#" -eq 2 ]; then
        prepare
        if [ "$1" = - ]; then
            cat >"$folder/first" || exit 127
            set -- "$folder/first" "$2"
        elif [ "$2" = - ]; then
            cat >"$folder/second" || exit 127
            set -- "$1" "$folder/second"
        fi
        joined "$1" "$2" >"$folder/joined" || exit 127
        run_program <"$folder/joined"
        exit
    fi
    # shellcheck disable=SC2086 # these are the words, one by one
    if is_ready && { [ "$#" -eq 0 ] || [ "$1" = - ]; }; then
        exec "$built" $words
    elif is_ready; then
        exec "$built" $words <"$1"
    fi
    prepare
    if [ "$#" -eq 0 ] || [ "$1" = - ]; then
        run_program
    else
        run_program <"$1"
    fi
    exit
}
