# places.awk SYMBOLS MARKS: the instructions between two marks by function, of all that have at least half a hundredth of them.
function value(digits,    i, sum) {
    for (i = 1; i <= length(digits); i++) sum = 16 * sum + index("0123456789abcdef", substr(digits, i, 1)) - 1
    return sum
}

# The last function that starts at the address or before it.
function function_of(address,    low, high, middle) {
    low = 1
    high = known
    while (low < high) {
        middle = int((low + high + 1) / 2)
        if (start[middle] <= address) low = middle
        else high = middle - 1
    }
    return name[low]
}

FNR == NR {
    if ($2 ~ /[tTwWiI]/) {
        start[++known] = value($1)
        name[known] = $3 $4 $5
    }
    next
}

$1 == "at" {
    count[function_of(value($2))] += $3
    all += $3
}

END {
    for (place in count)
        if (200 * count[place] >= all) printf "%9d %5.1f %% %s\n", count[place], 100 * count[place] / all, place
}
