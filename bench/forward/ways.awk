# Reads what `run --forward` printed, and prints the longest way of a message, in deliveries, and whether all
# ways, a Claim for each handover and an Open for each opened session make up what `passed` tells. A message
# goes back by each hop of its sender's record, and then in by each hop up to its taker's: so its way is both
# hop numbers and one. Of several records of an end at one party the last is meant; who holds the end at last
# has that of the last hop.
/^session / { if ($2 >= 64) opens++; got[$2 ".0", $3] = 1; got[$2 ".1", $5] = 1; next }
/^passed / { passed = $2; next }
/^[0-9]+\.[01] / {
    n++
    end[n] = $1; sender[n] = $3; taker[n] = $4
    if ($5 == "session" && $4 != "-") { claims++; hops[$6]++; got[$6, $4]++; gave[$6, $3]++; holder[$6, hops[$6]] = $4; first[$6] = first[$6] == "" ? $3 : first[$6] }
    else if ($5 == "session") open_way = 1
}
# the last hop of the end at that party
function hop(e, party,    h) { if (got[e, party] > gave[e, party]) return hops[e] + 0; for (h = hops[e]; h > 0; h--) if (holder[e, h] == party) return h; return 0 }
function other(e,    parts) { split(e, parts, "."); return parts[1] "." (1 - parts[2]) }
END {
    for (i = 1; i <= n; i++) {
        way = taker[i] == "-" ? 0 : hop(end[i], sender[i]) + hop(other(end[i]), taker[i]) + 1
        if (way > longest) longest = way
        all += way
    }
    print longest + 0, (all + claims + opens == passed) ? "all" : "not all"
}
