# Prints a page of help: awk -f words.awk -f page.awk words.txt PROGRAM [COMMAND]

# A word, or words, and what is said of them beside it.
function row(word, wide, said,    pad) {
    pad = sprintf("%" (wide + 4) "s", "")
    if (length(word) > wide)
        print "  " word "\n" pad wrapped(wide + 4, said)
    else
        print "  " word substr(pad, 1, wide + 2 - length(word)) wrapped(wide + 4, said)
}

function with_value(word, given) {
    return word (given == "" ? "" : " " given)
}

function rows_of_options(p, c,    n, i, all) {
    n = split(options_of[p, c], all, " ")
    for (i = 1; i <= n; i++)
        row(with_value(all[i], value[p, c, all[i]]), 14, text[p, c, all[i]] range_of(p, c, all[i]))
}

function range_of(p, c, of) {
    return (p, c, of) in high && high[p, c, of] != "" ? "; from " low[p, c, of] " to " high[p, c, of] : ""
}

function rows_of_common(    n, i, all) {
    n = split(commons, all, " ")
    for (i = 1; i <= n; i++)
        row(with_value(all[i], common_value[all[i]]), 14, common_text[all[i]])
}

function rows_of_answers(p, list,    n, i, all) {
    n = split(answers, all, " ")
    print "\nstatuses"
    for (i = 1; i <= n; i++)
        if (list == "" || is_in(all[i], list " 1 2 10 11 127"))
            row(all[i], 3, (p, all[i]) in answer_of ? answer_of[p, all[i]] : answer[all[i]])
}

function program_page(p,    n, i, all) {
    print wrapped(0, p ": " about[p, ""] ".")
    if (more[p, ""] != "")
        print wrapped(0, more[p, ""])
    if (commands_of[p] != "") {
        print "\nusage: " p " COMMAND [OPTIONS] [FILE]"
        print wrapped(0, "A command that reads takes standard input where no FILE is named, and for the FILE -. Several files are answered one by one, each with its name; the status is the first that isn't 0.")
        print "\ncommands"
        n = split(commands_of[p], all, " ")
        for (i = 1; i <= n; i++) {
            row(all[i] " " shape[p, all[i]], 23, about[p, all[i]] range_of(p, all[i], all[i]))
            rows_of_inner(p, all[i])
        }
        print "\noptions of all commands"
    } else {
        print "\nusage: " p " [OPTIONS] " shape[p, ""]
        print wrapped(0, "Without a FILE it reads standard input, and for the FILE -." (shape[p, ""] ~ /\.\./ ? " Several files are answered one by one, each with its name; the status is the first that isn't 0." : ""))
        print "\noptions"
        rows_of_options(p, "")
    }
    rows_of_common()
    rows_of_answers(p, statuses[p, ""])
    print "\nexample"
    print "  " example[p, ""]
}

# The options of a command on the program's page.
function rows_of_inner(p, c,    n, i, all) {
    n = split(options_of[p, c], all, " ")
    for (i = 1; i <= n; i++)
        row("  " with_value(all[i], value[p, c, all[i]]), 23, text[p, c, all[i]] range_of(p, c, all[i]))
}

function command_page(p, c) {
    print wrapped(0, p " " c ": " about[p, c] "." (more[p, c] == "" ? "" : " " more[p, c]))
    print "\nusage: " p " " c (options_of[p, c] == "" ? "" : " [OPTIONS]") (shape[p, c] == "" ? "" : " " shape[p, c])
    if (shape[p, c] ~ /^N/)
        print "N is from " low[p, c, c] " to " high[p, c, c] "."
    if (shape[p, c] ~ /FILE/)
        print "Without a FILE it reads standard input, and for the FILE -."
    print "\noptions"
    rows_of_options(p, c)
    rows_of_common()
    rows_of_answers(p, statuses[p, c])
    print "\nexample"
    print "  " example[p, c]
}

BEGIN {
    read_words(ARGV[1])
    if (ARGV[3] == "")
        program_page(ARGV[2])
    else
        command_page(ARGV[2], ARGV[3])
}
