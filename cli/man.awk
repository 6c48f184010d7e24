# Writes the man page: awk -f words.awk -f man.awk words.txt VERSION

# The text as roff has it: what stands between backquotes in bold.
function roff(s,    n, i, parts, all) {
    gsub(/\\/, "\\e", s)
    gsub(/-/, "\\-", s)
    n = split(s, parts, "`")
    all = parts[1]
    for (i = 2; i <= n; i++)
        all = all (i % 2 ? "\\fR" : "\\fB") parts[i]
    return all
}

function item(head, said) {
    print ".TP"
    print ".B " roff(head)
    print roff(said)
}

function with_value(word, given) {
    return word (given == "" ? "" : " " given)
}

function items_of(p, c,    n, i, all, w) {
    n = split(options_of[p, c], all, " ")
    for (i = 1; i <= n; i++) {
        w = all[i]
        item(with_value(w, value[p, c, w]), text[p, c, w] (high[p, c, w] == "" ? "" : ", from " low[p, c, w] " to " high[p, c, w]))
    }
}

function commands_section(p,    n, i, all, c) {
    n = split(commands_of[p], all, " ")
    for (i = 1; i <= n; i++) {
        c = all[i]
        item(with_value(c, shape[p, c]), about[p, c] "." (more[p, c] == "" ? "" : " " more[p, c]) (high[p, c, c] == "" ? "" : " N is from " low[p, c, c] " to " high[p, c, c] "."))
        if (options_of[p, c] != "") {
            print ".RS"
            items_of(p, c)
            print ".RE"
        }
    }
}

BEGIN {
    read_words(ARGV[1])
    n = split(programs, all, " ")
    print ".\\\" cli/make.sh writes this file, from cli/words.txt."
    print ".TH SJ 1 \"\" \"Porcharnica " ARGV[2] "\" \"\""
    print ".SH NAME"
    gsub(/^ | $/, "", programs)
    gsub(/ /, ", ", programs)
    print programs " \\- " roff(about["sj", ""])
    print ".SH SYNOPSIS"
    for (i = 1; i <= n; i++) {
        print ".B " all[i]
        print (commands_of[all[i]] == "" ? "[OPTIONS] " shape[all[i], ""] : "COMMAND [OPTIONS] [FILE]")
        print ".br"
    }
    print ".SH PROGRAMS"
    for (i = 1; i <= n; i++)
        item(all[i], about[all[i], ""] "." (more[all[i], ""] == "" ? "" : " " more[all[i], ""]))
    print ".PP"
    print "A command that reads takes standard input where no FILE is named, and for the FILE \\-. Several files are answered one by one, each with its name; the status is the first that isn't 0."
    print ".SH COMMANDS OF SJ AND SJNET"
    commands_section("sj")
    for (i = 1; i <= n; i++)
        if (options_of[all[i], ""] != "") {
            print ".SH OPTIONS OF " toupper(all[i])
            items_of(all[i], "")
        }
    print ".SH OPTIONS OF ALL"
    m = split(commons, words, " ")
    for (i = 1; i <= m; i++)
        item(with_value(words[i], common_value[words[i]]), common_text[words[i]])
    print ".SH EXIT STATUS"
    m = split(answers, words, " ")
    for (i = 1; i <= m; i++) {
        said = answer[words[i]]
        for (k = 1; k <= n; k++)
            if ((all[k], words[i]) in answer_of)
                said = said "; of " all[k] ": " answer_of[all[k], words[i]]
        item(words[i], said)
    }
    print ".SH EXAMPLES"
    for (i = 1; i <= n; i++) {
        print ".nf"
        if (commands_of[all[i]] != "" && all[i] == "sj") {
            m = split(commands_of["sj"], words, " ")
            for (k = 1; k <= m; k++)
                print roff(example["sj", words[k]])
        } else
            print roff(example[all[i], ""])
        print ".fi"
    }
    print ".SH SEE ALSO"
    print "README.md and docs/ of the repository"
}
