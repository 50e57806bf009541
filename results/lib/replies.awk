# Reads what two files advise on the same roll, first that of the game without a cube, and puts a row: the first plays of both, and what each
# loses by the other file.
$1 == "position" { file++ }

$1 ~ /^[0-9]+$/ {
    text = $4
    for (i = 5; i <= NF; i++)
        text = text " " $i
    if ($1 == 1)
        first[file] = text
    plays[file]++
    play[file, $1] = text
    lower[file, text] = millionths($2)
    upper[file, text] = millionths($3)
}

# The loss of a play by a file, at least and at most, with a tab between them.
function loss(of, by, best_lower, best_upper, i) {
    best_lower = lower[by, first[by]]
    best_upper = lower[by, of]
    for (i = 1; i <= plays[by]; i++)
        if (play[by, i] != of && upper[by, play[by, i]] > best_upper)
            best_upper = upper[by, play[by, i]]
    return decimal(least_loss(best_lower, upper[by, of])) "\t" decimal(most_loss(best_upper, lower[by, of]))
}

END {
    if (file != 2 || plays[1] != plays[2] || !((2, first[1]) in lower))
        exit 1
    print checkers "\t" opening "\t" opening_play "\t" position "\t" roll "\t" first[1] "\t" first[2] "\t" loss(first[1], 2) "\t" loss(first[2], 1)
}
