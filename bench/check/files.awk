# Writes a file of 65,536 bytes of the kind that `-v kind=` names: lets, ifs, sessions, handed, loops, held,
# beside, passed, turns, arms, alike, variables, known, wide, labels, widths, mixed.

# A text of n pieces, the one and the other in turn.
function many(n, odd, even,    text, i) {
    for (i = 1; i <= n; i++) text = text (i % 2 ? odd : even)
    return text
}
# As many whole pieces as fit into the file behind the text.
function filling(text, piece) { return many(int((size - length(text)) / length(piece)), piece, piece) }
function ifs() { return many(32, "if true{", "if true{") many(32, "}else{}", "}else{}") }

# Two dual protocols, and two that carry an end of the first.
function protocol(name, items) { return "protocol " name "{begin" items "}\n" }
function numbers(n) { return protocol("p", many(n, ".!<int>", ".?(int)")) protocol("q", many(n, ".?(int)", ".!<int>")) }
function carriers(n,    kind) {
    kind = substr(many(n, ".!<int>", ".?(int)"), 2)
    return protocol("g", ".!<" kind ">") protocol("h", ".?(" kind ")")
}
# The statements that use an end of the first, and of the second.
function first(x, n) { return many(n, "send " x " 1;", "recv " x " n int;") "close " x ";" }
function second(x, n) { return many(n, "recv " x " n int;", "send " x " 1;") "close " x ";" }

function two(a, b) { return "party a{" a "}\nparty b{" b "}\nconnect a x p to b y q;\n" }
function plain(n, front) { return numbers(n) two(front first("x", n), second("y", n)) }
function loops(n) {
    return protocol("p", many(n, ".![]*", ".![]*")) protocol("q", many(n, ".?[]*", ".?[]*")) two(many(n, "outwhile x 0{}", "outwhile x 0{}") "close x;", many(n, "inwhile y{}", "inwhile y{}") "close y;")
}
# 16 parties with the statements of `code`, and the connection k from the party k on to the next one.
function party(k) { return substr("abcdefghijklmnop", k % 16 + 1, 1) }
function parties(    k, text) { for (k = 0; k < 16; k++) text = text "party " party(k) "{" code[k] "}\n"; return text }
function add(k, text) { code[k % 16] = code[k % 16] text }
function ring(k, x, p, y, q) { return "connect " party(k) " " x " " p " to " party(k + 1) " " y " " q ";\n" }
function sessions(n,    k, x, y, text) {
    for (k = 0; k < 64; k++) {
        x = substr("wxyz", int(k / 16) + 1, 1)
        y = substr("stuv", int(k / 16) + 1, 1)
        add(k, first(x, n))
        add(k + 1, second(y, n))
        text = text ring(k, x, "p", y, "q")
    }
    return numbers(n) parties() text
}
function handed(n,    k, text) {
    for (k = 0; k < 63; k++) {
        add(k, "delegate x" k " s;close x" k ";")
        add(k + 1, "recv y" k " s session p;close y" k ";")
        text = text ring(k, "x" k, "g", "y" k, "h")
    }
    add(63, first("s", n))
    add(1, second("r", n))
    return numbers(n) carriers(n) parties() text ring(0, "s", "p", "r", "q")
}
# The same where one party has both ends of each carrier.
function held(n, front,    k, text) {
    for (k = 0; k < 63; k++) {
        front = front "delegate x" k " x;recv y" k " x session p;close x" k ";close y" k ";"
        text = text "connect a x" k " g to a y" k " h;\n"
    }
    return numbers(n) carriers(n) two(front first("x", n), second("y", n)) text
}
# One party that holds both ends of 64 connections, with its statements.
function alone(head, body,    k, text) {
    for (k = 0; k < 64; k++) text = text "connect a x" k " p to a y" k " q;\n"
    return head "party a{" body "}\n" text
}
function turns(n) { return protocol("p", many(n, ".![]*", ".![]*")) protocol("q", many(n, ".?[]*", ".?[]*")) }
function both_arms(text) { return "if true{" text "}else{" text "}" }
# The loop that stands first at the k-th of the 128 ends, without a statement in it.
function pass(k) { return k % 2 ? "inwhile y" int(k / 2) "{}" : "outwhile x" k / 2 " 0{}" }
# As many as fit of `if`s that pass in both arms `each` ends, in turn.
function passing(head, each,    k, i, piece, body) {
    while (1) {
        piece = ""
        for (i = 0; i < each; i++) piece = piece pass(k++ % 128)
        piece = both_arms(piece)
        if (length(alone(head, body piece)) > size) return alone(head, body)
        body = body piece
    }
}
# As many as fit of `inbranch`es of 16 empty arms, on 64 ends in turn, behind `front` and, in the file, `more`.
# Each arm of the choices has the text `sent` or `taken`, and `behind` stands behind each `inbranch`.
function branching(n, more, front, sent, taken, behind,    i, l, outs, ins, arms, head, k, piece, body) {
    for (i = 1; i <= 16; i++) {
        l = substr("abcdefghijklmnop", i, 1)
        outs = outs (i > 1 ? "," : "") l ":" sent
        ins = ins (i > 1 ? "," : "") l ":" taken
        arms = arms l ":{}"
    }
    head = more protocol("p", many(n, ".!{" outs "}", ".!{" outs "}")) protocol("q", many(n, ".?{" ins "}", ".?{" ins "}"))
    body = front
    while (1) {
        piece = "inbranch y" k % 64 "{" arms "}" (behind ? "recv y" k % 64 " n int;" : "")
        k++
        if (length(alone(head, body piece)) > size) return alone(head, body)
        body = body piece
    }
}
# A protocol whose choices name n labels.
function naming(n,    k, text) {
    for (k = 0; k < n; k++) text = text (k % 16 ? "," : k ? "}.!{" : ".!{") name(k) ":"
    return protocol("r", text "}")
}
function given(n,    k, text) { for (k = 0; k < n; k++) text = text "let " name(k) "=1;"; return text }
# The k-th of many short names.
function name(k,    letters) {
    letters = "abcdefghijklmnopqrstuvwxyzABCDEFGHIJKLMNOPQRSTUVWXYZ"
    return substr(letters, k % 52 + 1, 1) substr(letters, int(k / 52) % 52 + 1, 1) (k < 2704 ? "" : substr(letters, int(k / 2704), 1)) "_"
}
function variables(n) { return "party a{" given(n) filling("party a{" given(n) "}\n", ifs()) "}\n" }
function labels(    k, head, tail, body) {
    head = protocol("p", ".?{a:}") protocol("q", ".!{a:}") "party a{inbranch x{"
    tail = "}}\nparty b{}\nconnect a x p to b y q;\n"
    while (length(head body tail) < size - 6) body = body name(k++) ":{}"
    return head body tail
}
# A choice of n labels whose first arm has the text.
function narrow(n, text,    i) {
    text = "!{a:" text
    for (i = 2; i <= n; i++) text = text "," substr("abcdefghijklmnop", i, 1) ":"
    return text "}"
}
# The same labels from the last to the first.
function turned(n, text,    i, arms) {
    for (i = n; i >= 2; i--) arms = arms substr("abcdefghijklmnop", i, 1) ":,"
    return "!{" arms "a:" text "}"
}
# So many places one after another, each of 31 such choices in one another.
function chains(count, n, back,    i, text, all) {
    for (i = 1; i <= 31; i++) text = back ? turned(n, text) : narrow(n, text)
    for (i = 1; i <= count; i++) all = all "." text
    return all
}
# As many delegations as a tree of `if`s of that height has leaves.
function delegations(height,    half) {
    if (!height) return "delegate z x;"
    half = delegations(height - 1)
    return "if true{" half "}else{" half "}"
}
# An end whose choices have 16 labels is delegated where 15 of them are wanted, in their order or from the last on.
function widths(count, back) {
    return protocol("t", chains(count, 16)) protocol("g", ".!<" substr(chains(count, 15, back), 2) ">") "party a{request x t to a;request z g to a;" delegations(10) "close z;}\n"
}
BEGIN {
    size = 65536
    if (kind == "lets") text = plain(1024, filling(plain(1024), "let n=1;"))
    if (kind == "ifs") text = plain(1024, filling(plain(1024), ifs()))
    if (kind == "sessions") text = sessions(44)
    if (kind == "handed") text = handed(1023)
    if (kind == "loops") text = loops(1024)
    if (kind == "held") text = held(600, filling(held(600), ifs()))
    if (kind == "beside") text = alone(turns(1024), filling(alone(turns(1024)), ifs()))
    if (kind == "passed") text = passing(turns(1024), 1)
    if (kind == "turns") text = passing(turns(1024), 128)
    if (kind == "arms") text = branching(60)
    if (kind == "alike") text = branching(60, "", "", "!<int>", "?(int)", 1)
    if (kind == "known") text = branching(60, "", given(2500))
    if (kind == "wide") text = branching(60, naming(5500), "let z_=1;")
    if (kind == "variables") text = variables(2500)
    if (kind == "labels") text = labels()
    if (kind == "widths") text = widths(12)
    if (kind == "mixed") text = widths(12, 1)
    printf "%s%*s", text, size - length(text), ""
}
