# What whoever wins the opening roll has in the game as it begins, by the table of opening rolls: the mean of the best plays of the fifteen
# rolls, added as whole millionths and rounded outwards. Prints nothing where the table hasn't all fifteen.
function down(sum, part) {
    part = int(sum / 15)
    return part * 15 > sum ? part - 1 : part
}

$1 == checkers && $2 == stakes {
    if ($4 == 1) {
        rolls++
        low += millionths($5)
    }
    if ($4 == 1 || millionths($6) > most[$3])
        most[$3] = millionths($6)
}

END {
    if (rolls != 15)
        exit
    for (roll in most)
        up += most[roll]
    print decimal(down(low)) " to " decimal(-down(-up))
}
