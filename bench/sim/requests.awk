# Writes a file in which sessions are opened 1,000 times: each of ten parties in a ring requests 100 of the next one, sends a
# number on each, and accepts those that the one before it opened.
BEGIN {
    parties = "abcdefghij"
    print "protocol sends { begin.!<int> }"
    print "protocol takes { begin.?(int) }"
    print "protocol turns { begin.![]* }"
    print "protocol turned { begin.?[]* }"
    for (i = 0; i < 10; i++) {
        next_one = substr(parties, (i + 1) % 10 + 1, 1)
        last_one = substr(parties, (i + 9) % 10 + 1, 1)
        print "party " substr(parties, i + 1, 1) " {"
        print "  outwhile w 100 { request x sends to " next_one "; send x 1; close x; } close w;"
        print "  inwhile v { accept y takes from " last_one "; recv y n int; close y; } close v;"
        print "}"
    }
    for (i = 0; i < 10; i++)
        print "connect " substr(parties, i + 1, 1) " w turns to " substr(parties, (i + 1) % 10 + 1, 1) " v turned;"
}
