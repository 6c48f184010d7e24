# Writes an accepted file, another one for each number that `-v number=` names. It is built from its last
# event to its first, since what is ahead of an end has to be known wherever the end is handed on. The end
# of side s of the session n has the number 2n + s.

# A number below that one.
function thrown(many) { return int(rand() * many) }
# The piece, with the name of the end for each `@`.
function named(piece, end) { gsub(/@/, "e" end, piece); return piece }
function other(end) { return end % 2 ? end - 1 : end + 1 }

# Puts a statement that names these ends before those of the party, of which the first may be one that
# takes from an end and comes earlier than the order of events asks.
function put(party, end, moved, words) {
    if (!(party in late)) code[party] = words code[party]
    else if (late_end[party] == end || late_end[party] == moved) code[party] = words late[party] code[party]
    else code[party] = late[party] words code[party]
    delete late[party]
}

# Some message goes over some end.
function pass(    end, taker, kind) {
    end = thrown(ends)
    taker = holder[other(end)]
    kind = thrown(kinds)
    put(taker, other(end), other(end), "")
    if (thrown(3)) put(taker, other(end), other(end), named(takes[kind], other(end)))
    else {
        late[taker] = named(takes[kind], other(end))
        late_end[taker] = other(end)
    }
    put(holder[end], end, end, named(sends[kind], end))
    ahead[end] = sent[kind] ahead[end]
    ahead[other(end)] = taken[kind] ahead[other(end)]
}

# Some end comes to its party over another one, where that can be.
function hand_on(    carrier, end, taker) {
    carrier = thrown(ends)
    end = thrown(ends)
    taker = holder[other(carrier)]
    if (moves == 5 || int(end / 2) == int(carrier / 2) || holder[end] != taker || ahead[end] == "") return
    put(taker, other(carrier), end, named("recv @ ", other(carrier)) named("@ session m", end) moves "; ")
    put(holder[carrier], carrier, end, named("delegate @ ", carrier) named("@; ", end))
    ahead[carrier] = ".!<" substr(ahead[end], 2) ">" ahead[carrier]
    ahead[other(carrier)] = ".?(" substr(ahead[end], 2) ")" ahead[other(carrier)]
    moved = moved "protocol m" moves " { begin" ahead[end] " }\n"
    moves++
    holder[end] = holder[carrier]
}

# What goes over an end: the items of the sender and of the taker, and their statements.
function kind(s, t, sending, taking) {
    sent[kinds] = s
    taken[kinds] = t
    sends[kinds] = sending
    takes[kinds] = taking
    kinds++
}

BEGIN {
    srand(number)
    kinds = 0
    moves = 0
    kind(".!<int>", ".?(int)", "send @ 5; ", "recv @ n int; ")
    kind(".!<boolean>", ".?(boolean)", "send @ 1 < 2; ", "recv @ t boolean; ")
    kind(".!<String>", ".?(String)", "send @ \"Paris\"; ", "recv @ s String; ")
    kind(".![!<int>]*", ".?[?(int)]*", "outwhile @ 3 { send @ 1; } ", "inwhile @ { recv @ n int; } ")
    kind(".![!<int>.?(int)]*", ".?[?(int).!<int>]*", "outwhile @ 2 { send @ 1; recv @ n int; } ", "inwhile @ { recv @ n int; send @ n + 1; } ")
    kind(".!{YES: !<int>, NO:}", ".?{YES: ?(int), NO:}", "outbranch @ YES; send @ 2; ", "inbranch @ { YES: { recv @ n int; } NO: { } } ")
    parties = 2 + thrown(5)
    ends = 2 * (1 + thrown(5))
    for (end = 0; end < ends; end++) {
        holder[end] = thrown(parties)
        put(holder[end], end, end, named("close @; ", end))
    }
    for (events = 6 + thrown(14); events > 0; events--) if (thrown(3)) pass(); else hand_on()
    for (end = 0; end < ends; end++) print "protocol p" end " { begin" ahead[end] " }"
    printf "%s", moved
    for (party = 0; party < parties; party++) {
        put(party, 0, 0, "")
        print "party w" party " { " code[party] "}"
    }
    for (end = 0; end < ends; end += 2) print "connect w" holder[end] " e" end " p" end " to w" holder[end + 1] " e" (end + 1) " p" (end + 1) ";"
}
