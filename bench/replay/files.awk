# Writes a file of eight pairs of parties, one of which sends the other nine texts in each of `-v turns=` turns.
BEGIN {
    text = "a text as long as 16 MiB of log want it"
    for (i = 0; i < 9; i++) {
        sent = sent (i ? "." : "") "!<String>"
        taken = taken (i ? "." : "") "?(String)"
        sends = sends "send x \"" text "\"; "
        takes = takes "recv y s String; "
    }
    print "protocol out { begin.![" sent "]* }"
    print "protocol into { begin.?[" taken "]* }"
    for (i = 0; i < 8; i++) {
        printf "party a%d { outwhile x %d { %s} close x; }\n", i, turns, sends
        printf "party b%d { inwhile y { %s} close y; }\n", i, takes
    }
    for (i = 0; i < 8; i++) printf "connect a%d x out to b%d y into;\n", i, i
}
