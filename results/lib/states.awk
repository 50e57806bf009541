# Reads the lines of scan for all states of a file, which are a line for each kind of a position, the first kind first. Puts how many
# positions have their lower end in each part of a tenth of a point, by the first kind, and a line of the sample for each step-th rank,
# up to a thousand of them, with the pairs of all kinds.
$1 == "found" { next }

NR == 1 { first = $1 }

$1 == first {
    if (line != "")
        print line > sample
    line = ""
    tenth = millionths($(NF - 1)) / 100000
    part = int(tenth)
    if (part > tenth)
        part--
    positions[part]++
    if (rank % step == 0 && taken < 1000) {
        line = rank + 0 "\t" $2
        for (i = 3; i <= NF - 2; i++)
            line = line " " $i
        taken++
    }
    rank++
}

line != "" { line = line "\t" $(NF - 1) "\t" $NF }

END {
    if (line != "")
        print line > sample
    for (part = -31; part <= 30; part++)
        if (part in positions)
            print sprintf("%.1f", part / 10) "\t" positions[part]
}
