# The number of 32 bits that is nearest to one of 64 bits, or to a whole number up to 2^53, as a float of C is.

function single(number,  unit, whole, rest) {
    if (!number) return 0
    unit = 1
    while (number * unit < 8388608) unit *= 2
    while (number * unit >= 16777216) unit /= 2
    number *= unit
    whole = int(number)
    rest = number - whole
    if (rest > 0.5 || rest == 0.5 && whole % 2) whole++
    return whole / unit
}
