# Prints a call of the program `sj` for each command, and for each of its options, at the first and the last number:
# awk -f words.awk -f calls.awk words.txt
BEGIN {
    read_words(ARGV[1])
    p = "sj"
    n = split(commands_of[p], all, " ")
    for (i = 1; i <= n; i++) {
        c = all[i]
        if (high[p, c, c] == "")
            print c
        else
            print c " " low[p, c, c] "\n" c " " high[p, c, c]
        m = split(options_of[p, c], words, " ")
        for (k = 1; k <= m; k++)
            if (is_extra[p, c, words[k]])
                continue
            else if (value[p, c, words[k]] == "")
                print c " " words[k]
            else
                print c " " words[k] " " low[p, c, words[k]] "\n" c " " words[k] "=" high[p, c, words[k]]
    }
}
