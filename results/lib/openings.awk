# Reads what advise says of a roll, and puts a row for each play.
$1 ~ /^[0-9]+$/ {
    count++
    lower[count] = $2
    upper[count] = $3
    play[count] = $4
    for (i = 5; i <= NF; i++)
        play[count] = play[count] " " $i
}

# The greatest upper end of all plays but this one.
function best_upper_but(number, best, i) {
    best = millionths(lower[number])
    for (i = 1; i <= count; i++)
        if (i != number && millionths(upper[i]) > best)
            best = millionths(upper[i])
    return best
}

END {
    if (count == 0)
        exit 1
    # The plays stand by falling lower ends.
    best_lower = millionths(lower[1])
    for (i = 1; i <= count; i++) {
        least = least_loss(best_lower, millionths(upper[i]))
        most = most_loss(best_upper_but(i), millionths(lower[i]))
        best = most == 0 ? "yes" : least > 0 ? "no" : "open"
        printf "%s\t%s\t%s\t%d\t%s\t%s\t%s\t%s\t%s\t%s\n", checkers, stakes, roll, i, lower[i], upper[i], decimal(least), decimal(most), best, play[i]
    }
}
