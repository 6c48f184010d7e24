# Writes a file in which one end of a session of m messages is delegated k times, to and fro between two
# parties, before its last holder takes all of them: `awk -v k=3 -v m=10 -f files.awk`. The other end
# sends at once, so what it sends goes after the end.
function many(n, text, between,    i, all) { for (i = 0; i < n; i++) all = all (i ? between : "") text; return all }
BEGIN {
    ints = many(m, "?(int)", ".")
    there = int((k + 1) / 2)
    back = int(k / 2)
    print "protocol p { begin." many(m, "!<int>", ".") " }"
    print "protocol q { begin." ints " }"
    print "protocol g { begin." many(there, "!<" ints ">", ".") " }"
    print "protocol h { begin." many(there, "?(" ints ")", ".") " }"
    print "protocol s { begin" (back ? "." : "") many(back, "!<" ints ">", ".") " }"
    print "protocol t { begin" (back ? "." : "") many(back, "?(" ints ")", ".") " }"
    for (i = 1; i <= m; i++) sends = sends "send x " i "; "
    takes = many(m, "recv y n int; ", "")
    print "party a { " sends "close x; }"
    for (i = 1; i <= k; i++) {
        if (i % 2) { b = b "delegate z y; "; c = c "recv u y session q; " }
        else { c = c "delegate v y; "; b = b "recv w y session q; " }
    }
    if (k % 2) c = c takes "close y; "
    else b = b takes "close y; "
    print "party b { " b "close z; close w; }"
    print "party c { " c "close u; close v; }"
    print "connect a x p to b y q;"
    print "connect b z g to c u h;"
    print "connect c v s to b w t;"
}
