# octets.awk FOLDER=..: reads lines as docs/REQUESTS.md says it and writes four files into FOLDER: `octets`, the `crcoct` requests as they are; `bits`, the same
# as `crc` requests; `large`, requests that unpack to more bits than `crc` takes; `others`, all lines that are no request.
BEGIN {
    LINE = 600000
    PACKED = 70000
    BITS = 140000
    LARGEST = "18446744073709551615"
    hexadecimal = "0123456789abcdef"
    for (octet = 0; octet < 256; octet++) {
        pair = substr(hexadecimal, int(octet / 16) + 1, 1) substr(hexadecimal, octet % 16 + 1, 1)
        for (place = 128; place >= 1; place /= 2) eight[pair] = eight[pair] int(octet / place) % 2
    }
    octets = FOLDER "/octets"
    bits = FOLDER "/bits"
    large = FOLDER "/large"
    others = FOLDER "/others"
    printf "" >octets
    printf "" >bits
    printf "" >large
    printf "" >others
}

# A number without zeros in front: of as many digits, the texts have the order of the numbers.
function is_in_range(number) {
    return length(number) < length(LARGEST) || length(number) == length(LARGEST) && (number "") <= (LARGEST "")
}

# Piece by piece: a text that grows is copied each time.
function write_bits(width, packed,    i) {
    printf "crc %s ", width >bits
    for (i = 1; i < length(packed); i += 2) printf "%s", eight[substr(packed, i, 2)] >bits
    print (packed == "" ? "-" : "") >bits
}

{
    line = $0
    end = index(line, " #")
    if (end) line = substr(line, 1, end - 1)
    sub(/ +$/, "", line)
}

length($0) <= LINE && line ~ /^crcoct [0-9]+ (-|[0-9A-Fa-f]+)$/ {
    split(line, word, " ")
    width = word[2]
    sub(/^0+/, "", width)
    if (width == "") width = "0"
    packed = word[3] == "-" ? "" : tolower(word[3])
    if (is_in_range(width) && length(packed) % 2 == 0 && length(packed) <= 2 * PACKED) {
        if (4 * length(packed) > BITS) {
            print >large
        } else {
            print >octets
            write_bits(width, packed)
        }
        next
    }
}

{ print >others }
