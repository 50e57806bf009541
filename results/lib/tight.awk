# Reads files.tsv, and prints each file of three checkers with a pair that is wider than two millionths of a point. Fails where there is one.
$1 ~ /^(match)?3/ && millionths($2) > 2 {
    print $1, $2
    wide = 1
}

END { exit wide }
