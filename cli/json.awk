# Makes of an answer one line of JSON: awk -f words.awk -f json.awk words.txt STATUS FILE <ANSWER. The answer is that of
# `check`, `forest` or `sjwhy`; what it doesn't say is null.

function quoted(s,    i, c, all) {
    all = ""
    for (i = 1; i <= length(s); i++) {
        c = substr(s, i, 1)
        if (c == "\\" || c == "\"")
            c = "\\" c
        else if (c in code)
            c = sprintf("\\u%04x", code[c])
        all = all c
    }
    return "\"" all "\""
}

# A field whose value stands so, or is null where there is none.
function field(name, said) {
    line = line (line == "" ? "" : ",") "\"" name "\":" (said == "" ? "null" : said)
}

function text_field(name, said) {
    field(name, said == "" ? "" : quoted(said))
}

# Where the first sign of the line below the quoted one stands, and how many there are. A long line may begin in its
# middle; then it isn't known.
function take_signs(below, above,    from) {
    from = index(below, " | ") + 3
    if (match(below, /\^+/) && length(above) - from + 1 < 120) {
        column = RSTART - from + 1
        long = RLENGTH
    }
}

# The words from that one on.
function list_of(words, first, n,    i, all) {
    for (i = first; i <= n; i++)
        all = all (i == first ? "" : ",") quoted(words[i])
    return "[" all "]"
}

# A warning, which is a line and words.
function take_warning(said,    colon) {
    colon = index(said, ": ")
    warnings = warnings (warnings == "" ? "" : ",") "{\"line\":" substr(said, 1, colon - 1) ",\"words\":" quoted(substr(said, colon + 2)) "}"
}

BEGIN {
    read_words(ARGV[1])
    status = ARGV[2]
    file = ARGV[3]
    for (i = 1; i < 32; i++)
        code[sprintf("%c", i)] = i
    # the answer is what awk reads
    ARGC = 1
}

NR == 1 { first = $0; next }
NR == 2 { next }
/^  +[0-9]* \| / && above == "" { above = $0; next }
/^  +\| / && column == "" && above != "" { take_signs($0, above); next }
sub(/^there: /, "") { there = $0; next }
sub(/^mend: /, "") { mend = $0; next }
sub(/^wanted one of: /, "") { wanted = list_of(wanted_words, 1, split($0, wanted_words, " ")); next }
sub(/^did you mean /, "") { meant = $0; next }
sub(/^warning line /, "") { take_warning($0); next }
match($0, /^ends [a-z]+/) { verdict = substr($0, 6, RLENGTH - 5) }

END {
    n = split(first, w, " ")
    if (w[1] == "check" || w[1] == "syntax") {
        split(w[4], at, ":")
        fault = w[1]
        name = w[2]
        row = at[1]
        if (at[2] != "")
            column = at[2]
    } else if (status != 0 && w[1] != "forest") {
        fault = first
    }
    text_field("file", file)
    field("status", status)
    text_field("answer", first)
    text_field("fault", fault)
    text_field("rule", name)
    field("line", w[1] == "forest" && w[2] == "opens" ? w[3] : row)
    field("column", column)
    field("length", long)
    text_field("words", rule[name])
    text_field("there", there)
    text_field("mend", mend)
    field("wanted", wanted)
    text_field("meant", meant)
    if (w[1] == "accepted") {
        field("parties", w[3])
        field("sessions", w[5])
        text_field("ends", verdict)
        field("warnings", warnings == "" ? "" : "[" warnings "]")
    } else if (w[1] == "forest") {
        text_field("forest", w[2])
        field("left", w[2] == "opens" ? "" : list_of(w, 3, n))
    }
    print "{" line "}"
}
