# Draws a small board as text: awk -v seed=7 -f draw_board.awk. The same seed gives the same board everywhere.

# A number from low to high, by a generator whose steps are exact in awk's arithmetic.
function between(low, high) {
    state = (state * 16807) % 2147483647
    return low + int(state / 64) % (high - low + 1)
}

function term(variable,  factor) {
    factor = between(1, 3)
    return (factor == 1 ? "" : factor "*") "x" variable
}

# Up to three terms, and each variable once: numbers follow one another in a ring.
function sum(  text, first, count, i) {
    first = between(1, numbers)
    count = between(1, numbers < 3 ? numbers : 3)
    text = (between(1, 4) == 1 ? "-" : "") term(first)
    for (i = 1; i < count; i++)
        text = text (between(0, 1) ? " + " : " - ") term((first + i - 1) % numbers + 1)
    return text
}

function literal(  sign) {
    if (choices > 0 && between(1, 3) == 1)
        return (between(0, 1) ? "" : "not ") "b" between(1, choices)
    split("<= <= >= < > = !=", sign, " ")
    return sum() " " sign[between(1, 7)] " " between(-6, 12)
}

BEGIN {
    state = seed * 7919 + 12345
    for (step = 0; step < 8; step++) between(0, 1)
    numbers = between(1, 4)
    choices = between(0, 3)
    for (i = 1; i <= numbers; i++) {
        lower = between(-4, 3)
        print "number x" i " : " lower " .. " lower + between(0, 6)
    }
    for (i = 1; i <= choices; i++) print "choice b" i
    for (i = between(1, 9); i > 0; i--) {
        rule = literal()
        for (more = between(0, 2); more > 0; more--) rule = rule " or " literal()
        print rule
    }
}
