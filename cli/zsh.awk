# Writes the completions for zsh: awk -f words.awk -f zsh.awk words.txt

# The text as _arguments and _describe have it.
function plain(s) {
    gsub(/`/, "", s)
    gsub(/'/, "'\\''", s)
    gsub(/\[|\]|:/, "\\\\&", s)
    return s
}

function spec(w, given, said) {
    return " '" w (given == "" ? "" : "=") "[" plain(said) "]" (given == "" ? "" : ":" given ":" (given == "DIR" ? "_files -/" : "")) "'"
}

function specs_of(p, c,    n, i, words, all) {
    n = split(options_of[p, c], words, " ")
    for (i = 1; i <= n; i++)
        all = all spec(words[i], value[p, c, words[i]], text[p, c, words[i]])
    if (shape[p, c] ~ /^N/)
        all = all " ':N:'"
    if (shape[p, c] ~ /FILE/)
        all = all " '*:file:_files'"
    return all
}

BEGIN {
    read_words(ARGV[1])
    n = split(programs, all, " ")
    print "#compdef" programs
    print "# Completions of sj, sjnet, sjdraw and sjwhy for zsh. cli/make.sh writes this file, from cli/words.txt."
    print "local -a common commands"
    m = split(commons, words, " ")
    line = "common=("
    for (i = 1; i <= m; i++)
        line = line spec(words[i], common_value[words[i]], common_text[words[i]])
    print line " )"
    print "commands=("
    m = split(commands_of["sj"], words, " ")
    for (i = 1; i <= m; i++)
        print "    '" words[i] ":" plain(about["sj", words[i]]) "'"
    print "    'help:prints a page'"
    print ")"
    print "case $service in"
    for (i = 1; i <= n; i++)
        if (commands_of[all[i]] == "")
            print "    " all[i] ") _arguments $common" specs_of(all[i], "") "; return ;;"
    print "esac"
    print "if (( CURRENT == 2 )); then"
    print "    _describe command commands"
    print "    _arguments $common"
    print "    return"
    print "fi"
    print "case $words[2] in"
    print "    help) _describe command commands ;;"
    for (k = 1; k <= m; k++)
        print "    " words[k] ") shift words; (( CURRENT-- )); _arguments $common" specs_of("sj", words[k]) " ;;"
    print "esac"
}
