# Writes a file and a talk of `-v lines=` lines of party 0, or with `-v answers=1` what is printed for it:
#   -v kind=says     it sends a number in each turn of a loop, and closes its end
#   -v kind=asks     it asks in each turn, and takes the answer
#   -v kind=refused  each line but the last two is refused
function one(line, answer) {
    print answers ? answer : line
    done++
}
BEGIN {
    if (!answers) {
        asks = kind == "asks"
        print "protocol p { begin.![!<int>" (asks ? ".?(int)" : "") "]* }"
        print "protocol q { begin.?[?(int)" (asks ? ".!<int>" : "") "]* }"
        print "party a { outwhile x 1 { send x 5; " (asks ? "recv x n int; " : "") "} close x; }"
        print "party b { inwhile y { recv y n int; " (asks ? "send y n + 1; " : "") "} close y; }"
        print "connect a x p to b y q;"
        print "%%talk"
    }
    while (done + (kind == "asks" ? 3 : kind == "says" ? 2 : 1) <= lines - 2) {
        if (kind == "refused") {
            one("send x 5", "refused " done + 1 " G3")
            continue
        }
        one("more x", "ok")
        one("send x " done, "ok")
        if (kind == "asks") one("take x", "took int " done)
    }
    # what no whole turn fills is refused
    while (done < lines - 2) one("send x 5", "refused " done + 1 " G3")
    one("stop x", "ok")
    one("close x", "ok")
    if (answers) print "done"
}
