# Reads a history, and prints how many frames were delivered, how many bytes, as frames on the wire, the Carries
# have that were delivered again, and how often the message was that was delivered most often.
function bytes(tag) { return 31 + (tag == "int" ? 9 : tag == "String" ? 5 : tag == "label" ? 3 : tag == "session" ? 8 : 2) }
$3 == "from" { frames++ }
$3 == "from" && $5 == "carry" {
    seen[$6, $8]++
    if (seen[$6, $8] > 1) resent += bytes($10)
    if (seen[$6, $8] > longest) longest = seen[$6, $8]
}
END { print frames + 0, resent + 0, longest + 0 }
