# Writes a file at the limits: sixteen parties in eight pairs, each of which passes `loops` loops of up to 1,000 turns, one number a turn, so that with five loops
# each party does all but a few of the 10,000 steps that it may do. A message is a step of its sender and a step of its taker, so no file has over 80,000.
BEGIN {
    out = "begin"
    into = "begin"
    for (i = 1; i <= loops; i++) {
        out = out ".![!<int>]*"
        into = into ".?[?(int)]*"
    }
    printf "protocol gives { %s }\nprotocol gets { %s }\n", out, into
    for (p = 0; p < 8; p++) {
        printf "party a%d { let n = 1;", p
        for (i = 1; i <= loops; i++) printf " outwhile x %d { send x n; }", i < 5 ? 1000 : 990
        printf " close x; }\nparty b%d {", p
        for (i = 1; i <= loops; i++) printf " inwhile y { recv y m int; }"
        printf " close y; }\n"
    }
    for (p = 0; p < 8; p++) printf "connect a%d x gives to b%d y gets;\n", p, p
}
