# Prints each command with its answer, then the bills in yuan, and whether the nets agree with the fund.
# First file: the commands. Second file: the answers. Every figure is read from the answers or the commands.

function yuan(fen,    sign, whole) {
    sign = fen < 0 ? "-" : ""
    if (fen < 0) fen = -fen
    whole = int(fen / 100)
    return sign whole sprintf(".%02d", fen - whole * 100)
}

FNR == NR { command[++commands] = $0; next }
{ answer[++answers] = $0 }

END {
    print "What was entered, and what was answered"
    print ""
    next_answer = 1
    for (i = 1; i <= commands; i++) {
        printf "  %-24s %s\n", command[i], answer[next_answer]
        split(command[i], word, " ")
        ok = split(answer[next_answer], said, " ")
        next_answer++
        if (word[1] == "N" && said[1] == "ok") { year = word[2]; month = word[3] }
        if (word[1] == "F" && said[1] == "ok") paid += word[2]
        if (word[1] == "S" && said[1] == "ok") {
            rows = said[2]
            left = said[3]
            for (r = 1; r <= rows; r++) {
                bill[++bills] = answer[next_answer++]
                printf "  %-24s %s\n", "", bill[bills]
            }
        }
    }
    print ""
    printf "The bills of %d-%02d, in yuan\n", year, month
    print ""
    printf "  %5s %12s %12s %12s %12s %12s %12s %12s\n", "party", "charge", "pay", "share 1", "share 2", "share 3", "return", "net"
    for (r = 1; r <= bills; r++) {
        split(bill[r], figure, " ")
        printf "  %5d", figure[1]
        for (k = 2; k <= 8; k++) printf " %12s", yuan(figure[k])
        print ""
        nets += figure[8]
    }
    print ""
    printf "  the nets add up to             %14s\n", yuan(nets)
    printf "  left in the commissioning fund %14s\n", yuan(left)
    printf "  paid into the fund             %14s\n", yuan(paid)
    print ""
    if (nets != left - paid) {
        print "The nets do not add up to the fund left less the money paid in."
        exit 1
    }
    print "The nets add up to the fund left less the money paid in."
}
