# Reads what plan says, and puts a row for each side of each score. One word stands in place of both ends where there are none.
function ends(at) {
    if ($at == "none" || $at == "open") {
        next_word = at + 1
        return $at "\t" $at
    }
    next_word = at + 2
    return $at "\t" $(at + 1)
}

$2 == "start" { start = $3 "\t" $4 }

$2 == "near" || $2 == "far" {
    take = ends(4)
    price = ends(next_word + 1)
    print checkers "\t" length_of_match "\t" $1 "\t" start "\t" $2 "\t" take "\t" price
}
