# checksum.awk MEDIANS COUNTS: the table of checksums of octets beside bit by bit, and whether the bar is met; the status is 1 where it is not.
# MEDIANS is what the driver says; COUNTS is the table of counts.awk, and empty where instructions are not counted.
function nanoseconds(name, side) { return sprintf(time[name, side] < 9.95 ? "%10.1f" : "%10.0f", time[name, side]) }

# What is over the bar. The printed ratios are rounded, so they are not what is judged.
function excess(ratio, what) {
    if (ratio == "") return " and not measured in " what
    return ratio > BAR ? sprintf(ratio < BAR + 0.005 ? " and %.4f in %s" : " and %.2f in %s", ratio, what) : ""
}

function judge(name,    said) {
    said = excess(slower[name], "time") (counted ? excess(more[name], "instructions") : "")
    if (said) over = over ", " name substr(said, 5)
}

function row(name) {
    printf "%-20s %s  %s %8.2f", name, nanoseconds(name, "product"), nanoseconds(name, "plain*"), slower[name]
    if (!counted) {
        printf " %12s  %10s %8s\n", "-", "-", "-"
        return
    }
    if (count[name, "plain*"]) more[name] = count[name, "product"] / count[name, "plain*"]
    printf " %12.0f  %10.0f %8.2f\n", count[name, "product"], count[name, "plain*"], more[name]
}

BEGIN { BAR = 0.5 }

FILENAME == ARGV[1] {
    split($0, part, "|")
    time[part[1], part[2]] = part[3]
    if (part[2] == "plain*") slower[part[1]] = part[4]
    next
}

# The columns behind the job: product, plain, plain*.
$3 == "octets" {
    counted = 1
    count[$1 " " $2 " " $3, "product"] = $4
    count[$1 " " $2 " " $3, "plain*"] = $6
}

END {
    printf "%-20s %32s %33s\n", "", "CPU time, nanoseconds", "x86-64 instructions"
    printf "%-20s %10s  %10s %8s %12s  %10s %8s\n", "one checksum", "product", "bit by bit", "ratio", "product", "bit by bit", "ratio"
    widths = split("24 16 8", width, " ")
    lengths = split("1 16 256 2048", octets, " ")
    for (i = 1; i <= widths; i++)
        for (j = 1; j <= lengths; j++) row("crc" width[i] " " octets[j] " octets")
    for (i = 1; i <= widths; i++) judge("crc" width[i] " " octets[lengths] " octets")
    printf "\nthe bar, at most %.2f of bit by bit for %d octets%s: ", BAR, octets[lengths], counted ? "" : ", judged by time alone"
    print over ? "not met: " substr(over, 3) : "met"
    exit over != ""
}
