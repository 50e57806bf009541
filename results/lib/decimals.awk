# Numbers with six decimals as whole numbers of millionths, and back, so that sums and differences are exact.
function millionths(text, sign) {
    sign = 1
    if (substr(text, 1, 1) == "-") {
        sign = -1
        text = substr(text, 2)
    }
    sub(/\./, "", text)
    return sign * text
}

function decimal(number, sign) {
    sign = ""
    if (number < 0) {
        sign = "-"
        number = -number
    }
    return sprintf("%s%d.%06d", sign, int(number / 1000000), number % 1000000)
}

# What a play of this pair loses at least where the best of all lower ends is known, and at most where the best of the others' upper ends is.
function least_loss(best_lower, upper) {
    return best_lower > upper ? best_lower - upper : 0
}

function most_loss(best_upper, lower) {
    return best_upper > lower ? best_upper - lower : 0
}
