# Reads words.txt, for the other files beside it. Of a program and a command (`""` for none) are known:
#   about[p, c]  shape[p, c]  more[p, c]  statuses[p, c]  example[p, c], and options_of[p, c], words with a space
#   before each; of an option text[p, c, w], value[p, c, w], is_extra[p, c, w], alone[p, c, w]; and low[..], high[..]
# besides commons with common_text[w] and common_value[w], commands_of[p], same_as[p], programs,
# answers, answer[n], answer_of[p, n] and rule[r].

# The first field of the rest of the line, and then the others.
function fields(line, parts,    n) {
    n = split(line, parts, / *\| */)
    sub(/^[a-z]+ /, "", parts[1])
    return n
}

function add_option(p, c, extra, parts) {
    options_of[p, c] = options_of[p, c] " " parts[1]
    value[p, c, parts[1]] = parts[2]
    text[p, c, parts[1]] = parts[3]
    is_extra[p, c, parts[1]] = extra
    if (parts[2] != "")
        takes_value[parts[1]] = 1
}

function read_words(path,    line, kind, parts, p, c) {
    while ((getline line < path) > 0) {
        kind = line
        sub(/ .*/, "", kind)
        fields(line, parts)
        if (kind == "program") {
            p = parts[1]
            c = ""
            programs = programs " " p
            shape[p, c] = parts[2]
            about[p, c] = parts[3]
        } else if (kind == "command") {
            c = parts[1]
            commands_of[p] = commands_of[p] " " c
            shape[p, c] = parts[2]
            about[p, c] = parts[3]
        } else if (kind == "option" || kind == "extra") {
            add_option(p, c, kind == "extra", parts)
        } else if (kind == "common") {
            commons = commons " " parts[1]
            common_text[parts[1]] = parts[3]
            common_value[parts[1]] = parts[2]
            if (parts[2] != "")
                takes_value[parts[1]] = 1
        } else if (kind == "range") {
            split(line, parts, " ")
            low[p, c, parts[2]] = parts[3]
            high[p, c, parts[2]] = parts[4]
        } else if (kind == "alone") {
            alone[p, c, parts[1]] = 1
        } else if (kind == "more") {
            sub(/^more /, "", line)
            more[p, c] = more[p, c] (more[p, c] == "" ? "" : " ") line
        } else if (kind == "status") {
            statuses[p, c] = parts[1]
        } else if (kind == "example") {
            sub(/^example /, "", line)
            example[p, c] = line
        } else if (kind == "answer" && p != "") {
            answer_of[p, parts[1]] = parts[2]
        } else if (kind == "answer") {
            answers = answers " " parts[1]
            answer[parts[1]] = parts[2]
        } else if (kind == "rule") {
            rule[parts[1]] = parts[2]
        } else if (kind == "same") {
            same_as[p] = parts[1]
            take_commands(p, parts[1])
        }
    }
    close(path)
}

# Gives the program the commands of another one.
function take_commands(p, q,    n, i, all, k, m, words, c) {
    commands_of[p] = commands_of[q]
    n = split(commands_of[q], all, " ")
    for (i = 1; i <= n; i++) {
        c = all[i]
        shape[p, c] = shape[q, c]
        about[p, c] = about[q, c]
        more[p, c] = more[q, c]
        statuses[p, c] = statuses[q, c]
        example[p, c] = example[q, c]
        sub(/^[a-z]+ /, p " ", example[p, c])
        options_of[p, c] = options_of[q, c]
        low[p, c, c] = low[q, c, c]
        high[p, c, c] = high[q, c, c]
        m = split(options_of[q, c], words, " ")
        for (k = 1; k <= m; k++) {
            text[p, c, words[k]] = text[q, c, words[k]]
            value[p, c, words[k]] = value[q, c, words[k]]
            is_extra[p, c, words[k]] = is_extra[q, c, words[k]]
            alone[p, c, words[k]] = alone[q, c, words[k]]
            low[p, c, words[k]] = low[q, c, words[k]]
            high[p, c, words[k]] = high[q, c, words[k]]
        }
    }
}

# Whether the word is one of the list, which has spaces between its words.
function is_in(word, list) {
    return index(" " list " ", " " word " ") > 0 && word !~ / / && word != ""
}

# The text with lines of at most 80 bytes, each after the first with that indent.
function wrapped(indent, said,    n, i, words, line, all, pad) {
    pad = sprintf("%" indent "s", "")
    n = split(said, words, " ")
    line = ""
    all = ""
    for (i = 1; i <= n; i++) {
        if (line != "" && indent + length(line) + 1 + length(words[i]) > 80) {
            all = all line "\n" pad
            line = ""
        }
        line = line (line == "" ? "" : " ") words[i]
    }
    return all line
}
