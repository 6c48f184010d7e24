#!/bin/sh
# Counts sentences of more than 30 words, and words that plain English has others for.
# usage: docs/count.sh [--show] [--comments] [FILE..]; --show prints the sentences.
# It looks at documents: README.md and those of docs/, examples/ and editors/ if no file is named.
# With --comments it looks at comments: of crates/*/src, specs and proofs if no file is named, one
# row a crate. These are lines that begin with //, /// or //! in .rt files and -- in .antt files;
# a run of them is one paragraph.
# What stands in code, a table's cell or a list's item is looked at by itself.
# Code in a line is one word.
docs=$(cd "$(dirname "$0")" && pwd) || exit 2
show=
comments=
while :; do
    case "${1-}" in
    --show) show=1 ;;
    --comments) comments=1 ;;
    *) break ;;
    esac
    shift
done
if [ "$#" -eq 0 ]; then
    cd "$docs/.." || exit 2
    if [ -n "$comments" ]; then
        set -- $(find crates/*/src crates/*/specs crates/*/proofs -name '*.rt' -o -name '*.antt' | LC_ALL=C sort)
    else
        set -- *.md docs/*.md examples/README.md editors/README.md
    fi
fi
LC_ALL=C awk -v show="$show" -v comments="$comments" '
    # the sentences of a paragraph or a cell
    function look(said, at,    n, i, all, m, words, k, old) {
        gsub(/`[^`]*`/, "code", said)
        gsub(/\]\([^)]*\)/, "", said)
        gsub(/!?\[|\*/, "", said)
        gsub(/e\.g\.|i\.e\./, "eg", said)
        gsub(/\.\./, "", said)
        n = split(said, all, /[.?!]+[)"]?( |$)/)
        for (i = 1; i <= n; i++) {
            m = split(all[i], words, " ")
            if (m > 30) {
                long[row]++
                if (show)
                    print file ":" at ": " m " words: " all[i]
            }
            k = " " tolower(all[i]) " "
            gsub(/[^a-z]+/, " ", k)
            gsub(/ /, "  ", k)
            gsub(/ in  front  of /, " ", k)
            old = gsub(/ want  of  memory /, "&", k) + gsub(/ behind /, "&", k) + gsub(/ front  of /, "&", k) + \
                gsub(/ part(ed|s  its|ing) /, "&", k) + gsub(/ t(old|ells?|elling) /, "&", k) + gsub(/ no  step /, "&", k) + \
                gsub(/ where  all  wait /, "&", k) + gsub(/ block(s|ed)?  for  ever /, "&", k)
            if (old > 0) {
                olds[row] += old
                if (show)
                    print file ":" at ": old words: " all[i]
            }
            sentences[row] += m > 0
        }
    }
    function end_paragraph() {
        if (text != "")
            look(text, from)
        text = ""
    }
    FNR == 1 {
        end_paragraph()
        file = row = FILENAME
        if (comments && match(file, /^crates\/[^\/]*\//))
            row = substr(file, 1, RLENGTH - 1)
        if (!(row in seen)) {
            seen[row] = 1
            rows[++count] = row
        }
        fenced = 0
        mark = ""
    }
    # of a file with code only comments are looked at, and of those what stands after their mark
    comments {
        before = mark
        if (!match($0, file ~ /[.]antt$/ ? "^ *--" : "^ *//[/!]?")) {
            end_paragraph()
            mark = ""
            fenced = 0
            next
        }
        mark = substr($0, 1, RLENGTH)
        gsub(/ /, "", mark)
        $0 = substr($0, RLENGTH + 1)
        sub(/^ /, "")
        if (mark != before)
            end_paragraph()
    }
    /^ *```/ { end_paragraph(); fenced = !fenced; next }
    fenced { next }
    /^#/ || /^ *$/ { end_paragraph(); next }
    /^\|/ {
        end_paragraph()
        n = split($0, cells, "|")
        for (c = 1; c <= n; c++)
            look(cells[c], FNR)
        next
    }
    /^ *([-*]|[0-9]+\.) / { end_paragraph(); sub(/^ *([-*]|[0-9]+\.) /, "") }
    { if (text == "") from = FNR; text = text " " $0 }
    END {
        end_paragraph()
        for (i = 1; i <= count; i++) {
            f = rows[i]
            printf "%-24s %5d sentences, %4d over 30 words, %4d old words\n", f, sentences[f], long[f], olds[f]
            a += sentences[f]; b += long[f]; c2 += olds[f]
        }
        printf "%-24s %5d sentences, %4d over 30 words, %4d old words\n", "all", a, b, c2
    }' "$@"
