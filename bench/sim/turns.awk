# Writes a file of some 57,000 bytes that asks much of `sim` at each step: in three sessions an inner loop
# turns as long as the limit of steps lets it, and each turn takes a choice whose other arm has 1,015 items.
BEGIN {
    items = 1015
    for (i = 1; i < items; i++) { sent = sent "!<int>."; taken = taken "?(int)."; takes = takes "recv y n int; " }
    sent = sent "!<int>"; taken = taken "?(int)"; takes = takes "recv y n int;"
    print "protocol p { begin.![![!{A:, B: " sent "}]*]* }"
    print "protocol q { begin.?[?[?{A:, B: " taken "}]*]* }"
    for (i = 0; i < 3; i++) {
        print "party s" i " { outwhile x 1000 { outwhile x 1000 { outbranch x A; } } close x; }"
        print "party r" i " { inwhile y { inwhile y { inbranch y { A: {} B: { " takes " } } } } close y; }"
    }
    for (i = 0; i < 3; i++) print "connect s" i " x p to r" i " y q;"
}
