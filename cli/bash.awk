# Writes the completions for bash: awk -f words.awk -f bash.awk words.txt

# A row of a case: of that program and command the words, and whether files go with it.
function row(p, c) {
    printf "        '%s') words=\"%s%s\"", p (c == "" ? "" : " " c), substr(options_of[p, c], 2), (options_of[p, c] == "" ? "" : " ") "$common"
    print (shape[p, c] ~ /FILE/ ? " files=1" : "") " ;;"
}

BEGIN {
    read_words(ARGV[1])
    n = split(programs, all, " ")
    print "# Completions of sj, sjnet, sjdraw and sjwhy for bash. cli/make.sh writes this file, from cli/words.txt."
    print "_sj() {"
    print "    local program=${COMP_WORDS[0]##*/} word=${COMP_WORDS[COMP_CWORD]} before=${COMP_WORDS[COMP_CWORD - 1]}"
    print "    local common=\"" substr(commons, 2) " -h\" commands=\"" substr(commands_of["sj"], 2) "\" command='' words='' files='' i"
    print "    for ((i = 1; i < COMP_CWORD; i++)); do"
    print "        case \" $commands help \" in *\" ${COMP_WORDS[i]} \"*) command=${COMP_WORDS[i]}; break ;; esac"
    print "    done"
    for (i = 1; i <= n; i++)
        if (same_as[all[i]] != "")
            print "    [ \"$program\" != " all[i] " ] || program=" same_as[all[i]]
        else if (commands_of[all[i]] == "")
            print "    [ \"$program\" != " all[i] " ] || command=''"
    print "    COMPREPLY=()"
    print "    if [ \"$before\" = --install ]; then"
    print "        while IFS= read -r i; do COMPREPLY+=(\"$i\"); done < <(compgen -d -- \"$word\")"
    print "        return"
    print "    fi"
    print "    case \"$program${command:+ $command}\" in"
    for (i = 1; i <= n; i++) {
        p = all[i]
        if (same_as[p] != "")
            continue
        if (commands_of[p] != "") {
            print "        '" p "') words=\"$commands help $common\" ;;"
            print "        '" p " help') words=$commands ;;"
            m = split(commands_of[p], words, " ")
            for (k = 1; k <= m; k++)
                row(p, words[k])
        } else
            row(p, "")
    }
    print "    esac"
    print "    while IFS= read -r i; do COMPREPLY+=(\"$i\"); done < <("
    print "        compgen -W \"$words\" -- \"$word\"; [ -z \"$files\" ] || compgen -f -- \"$word\")"
    print "}"
    print "complete -o filenames -F _sj" programs
}
