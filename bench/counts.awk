# counts.awk MARKS JOBS: the table of instructions. One call is (the count of twice as many calls - the count of so many) / so many.
function ratio(job, side) {
    return (job, side) in one ? sprintf("%8.2f", one[job, "product"] / one[job, side]) : sprintf("%8s", "-")
}

FNR == NR {
    if ($1 == "mark") count[$2] = $3
    next
}

{
    id = $2
    calls = $3
    sub(/^job [0-9]+ [0-9]+ /, "")
    split($0, part, "|")
    if (!(part[1] in seen)) {
        seen[part[1]] = 1
        jobs[++last] = part[1]
    }
    one[part[1], part[2]] = (count[id + 1] - count[id]) / calls
}

END {
    sides = split("product plain plain* limit", side, " ")
    printf "%-28s", "x86-64 instructions"
    for (i = 1; i <= sides; i++) printf " %8s", side[i]
    for (i = 2; i <= sides; i++) printf "  /%-6s", side[i]
    print ""
    for (j = 1; j <= last; j++) {
        printf "%-28s", jobs[j]
        for (i = 1; i <= sides; i++)
            if ((jobs[j], side[i]) in one) printf " %8.0f", one[jobs[j], side[i]]
            else printf " %8s", "-"
        for (i = 2; i <= sides; i++) printf " %s", ratio(jobs[j], side[i])
        print ""
    }
}
