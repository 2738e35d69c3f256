# lines.awk: COUNT request lines of a SHAPE, with the records of the shelves PUBLIC and PRIVATE, which are given in hexadecimal.
# A shape of what comes back (check, rate, recv, hrecv, tbback, near 40) is made of the file of the lines before it, each followed by its answer.
function value(at, octets,    i, sum) {
    for (i = 1; i <= 2 * octets; i++) sum = 16 * sum + index("0123456789abcdef", substr(public, 2 * at + i, 1)) - 1
    return sum
}

function record(number,    entry) {
    for (entry = 2; value(entry + 2, 2) != number; entry += 8) continue
    return substr(public, 2 * value(entry + 4, 2) + 1, 2 * value(entry + 6, 2))
}

function drawn(count, digits,    text) {
    while (count-- > 0) text = text substr(digits, 1 + int(rand() * length(digits)), 1)
    return text
}

function bits(count) { return drawn(count, "01") }
function octets(count) { return drawn(2 * count, "0123456789abcdef") }

# Packed bits as digits.
function unpacked(packed,    i, text) {
    for (i = 1; i <= length(packed); i++) text = text four[substr(packed, i, 1)]
    return text
}

function line() {
    if (shape == "crc 8 bits") return "crc 24 " bits(8)
    if (shape == "crc 16384 bits") return "crc 24 " bits(16384)
    if (shape == "crcoct 2048 octets") return "crcoct 24 " octets(2048)
    if (shape == "profile 34") return "profile " r34
    if (shape == "plan 56") return "plan " r56 " " 1 + int(rand() * 2048)
    if (shape == "encode 56 z81") return "encode " r56 " 81 " bits(20 * 81) " 1944"
    if (shape == "send 56 56 octets") return "send " r56 " " octets(56) " 1 2 580 580"
    if (shape == "send 56 2048 octets") return "send " r56 " " octets(2048) " 1 2 19976 19976"
    if (shape == "tbsend 40 as 120") return "tbsend " bits(40) " 120 120"
    if (shape == "near 40 of no word") return "near 40 " bits(120) " 40"
    if (shape == "lookup 34") return "lookup " private " " public " 11 34"
    return "hsend " private " " public " 11 34 " octets(56) " 1 2 712 712"
}

# The line that goes with an answer: number, count and what was written.
function line_of(sent, answer,    word, got) {
    split(sent, word, " ")
    split(answer, got, " ")
    if (shape == "check 56 z81") return "check " word[2] " 81 " got[3]
    if (shape == "rate 4000 bits") return "rate 4000 " got[3] " 4000"
    if (word[1] == "tbsend") return "tbback " length(word[2]) " " substr(unpacked(got[3]), 1, got[2]) " 120"
    if (word[1] == "tbback") return "near " word[2] " " substr(unpacked(got[3]), 1, got[2]) " 40"
    if (word[1] == "send") return "recv " word[2] " " 4 * length(word[3]) " 1 2 " substr(unpacked(got[3]), 1, got[2]) " 2048"
    return "hrecv " word[2] " " word[3] " 11 34 448 1 2 " substr(unpacked(got[3]), 1, got[2]) " 56"
}

BEGIN {
    srand(5)
    r34 = record(34)
    r56 = record(56)
    for (i = 0; i < 16; i++)
        four[substr("0123456789abcdef", i + 1, 1)] = int(i / 8) % 2 int(i / 4) % 2 int(i / 2) % 2 i % 2
    if (ARGC > 1) {
        while ((getline sent < ARGV[1]) > 0 && (getline answer < ARGV[1]) > 0) print line_of(sent, answer)
    } else {
        while (count-- > 0) print line()
    }
    exit
}
