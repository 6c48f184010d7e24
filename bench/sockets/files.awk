# Writes a small file for `-v seed=`: two to five parties that talk over some sessions, and hand ends on.
# The statements are those of one order of all steps, so that nobody waits for ever; with a seed that 3
# divides, some stand in another order, so that the file may be refused, or block.

function below(n) { return int(rand() * n) }
function party(k) { return substr("abcde", k + 1, 1) }
function act(k, text) { steps[k, count[k]++] = text }
# A protocol with these items, of the first side; the second side has its dual.
function protocols(name, out, back) {
    return "protocol w" name "p { begin" out " }\nprotocol w" name "q { begin" back " }\n"
}
function connection(s, a, b) {
    return "connect " party(a) " x" s " w" s "p to " party(b) " y" s " w" s "q;\n"
}
# One more item of session s: what it is for its sender and for its taker, and what they do.
function item(s, side, out, back, sends, takes,    from, to) {
    from = end[s, side]
    to = end[s, 1 - side]
    gsub(/@/, from, sends)
    gsub(/@/, to, takes)
    gsub(/#/, "v" (values + 0), takes)
    values++
    act(holder[s, side], sends)
    act(holder[s, 1 - side], takes)
    items[s, side, size[s]] = out
    items[s, 1 - side, size[s]++] = back
}
function talk(s,    side, kind, turns) {
    side = below(2)
    kind = below(6)
    turns = below(4)
    if (kind == 0) item(s, side, "!<String>", "?(String)", "send @ \"text\";", "recv @ # String;")
    else if (kind == 1) item(s, side, "!<boolean>", "?(boolean)", "send @ 2 < 3;", "recv @ # boolean;")
    else if (kind == 2) item(s, side, "![!<int>]*", "?[?(int)]*", "outwhile @ " turns " { send @ 7; }", "inwhile @ { recv @ # int; }")
    else if (kind == 3)
        item(s, side, "!{YES: !<int>, NO:}", "?{YES: ?(int), NO:}", turns % 2 ? "outbranch @ NO;" : "outbranch @ YES; send @ 1;",
            "inbranch @ { YES: { recv @ # int; } NO: { } }")
    else item(s, side, "!<int>", "?(int)", "send @ " below(1000) ";", "recv @ # int;")
}
# An end of session s goes to another party, or back, over a session of its own.
function hand(s,    side, from, to, d) {
    side = below(2)
    from = holder[s, side]
    to = (from + 1 + below(parties - 1)) % parties
    d = handed + 0
    handed++
    over[d] = s; over_side[d] = side; over_at[d] = size[s]
    act(from, "delegate x" "d" d " " end[s, side] ";")
    act(from, "close x" "d" d ";")
    act(to, "recv y" "d" d " s" d " session r" d ";")
    act(to, "close y" "d" d ";")
    carriers = carriers connection("d" d, from, to)
    holder[s, side] = to
    end[s, side] = "s" d
}
# The items of a side from that one on.
function rest(s, side, at,    text) {
    for (; at < size[s]; at++) text = text "." items[s, side, at]
    return text
}
BEGIN {
    srand(seed)
    parties = 2 + below(4)
    sessions = 1 + below(3)
    for (s = 0; s < sessions; s++) {
        size[s] = 0
        holder[s, 0] = below(parties)
        holder[s, 1] = (holder[s, 0] + 1 + below(parties - 1)) % parties
        end[s, 0] = "x" s
        end[s, 1] = "y" s
        connects = connects connection(s, holder[s, 0], holder[s, 1])
    }
    for (n = 4 + below(16); n > 0; n--) {
        if (below(4) == 0) hand(below(sessions))
        else talk(below(sessions))
    }
    for (s = 0; s < sessions; s++) {
        talk(s)
        for (side = 0; side < 2; side++) act(holder[s, side], "close " end[s, side] ";")
    }
    for (s = 0; s < sessions; s++) printf "%s", protocols(s, rest(s, 0, 0), rest(s, 1, 0))
    for (d = 0; d < handed; d++) {
        kind = rest(over[d], over_side[d], over_at[d])
        printf "protocol r%d { begin%s }\n%s", d, kind, protocols("d" d, ".!<" substr(kind, 2) ">", ".?(" substr(kind, 2) ")")
    }
    for (k = 0; k < parties; k++) {
        if (seed % 3 == 0 && count[k] > 1) {
            at = below(count[k] - 1)
            other = steps[k, at]; steps[k, at] = steps[k, at + 1]; steps[k, at + 1] = other
        }
        printf "party %s {", party(k)
        for (n = 0; n < count[k]; n++) printf " %s", steps[k, n]
        print " }"
    }
    printf "%s%s", connects, carriers
}
