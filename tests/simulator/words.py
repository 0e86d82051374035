"""Bandwidths and metrics as IEEE 754 words (RFC 5440 sections 7.7 and 7.8), in whole numbers alone."""

LIMIT = 1 << 48


class BadNumber(Exception):
    """The word says no number that counts here."""


def parts(word):
    """The word's value is the first number times two to the second less 150."""
    if word == 0x80000000:
        return 0, 1
    sign, exponent, fraction = word >> 31, word >> 23 & 0xFF, word & 0x7FFFFF
    if sign or exponent == 255:
        raise BadNumber(word)
    return (fraction, 1) if exponent == 0 else (fraction + (1 << 23), exponent)


def bandwidth(word):
    """The least whole number that isn't below the word's value."""
    mantissa, exponent = parts(word)
    value = -(-(mantissa << exponent) >> 150)
    if value >= LIMIT:
        raise BadNumber(word)
    return value


def metric_bound(word):
    """The greatest whole number that isn't above the word's value."""
    mantissa, exponent = parts(word)
    return min(mantissa << exponent >> 150, LIMIT - 1)


def word(value):
    """The least word whose value isn't below the number."""
    if value == 0:
        return 0
    bits = value.bit_length()
    mantissa = value << (24 - bits) if bits <= 24 else -(-value >> (bits - 24))
    if mantissa == 1 << 24:
        mantissa, bits = 1 << 23, bits + 1
    return (bits + 126 << 23) + mantissa - (1 << 23)


def raised(value):
    """The next bandwidth that a word says, or None."""
    try:
        return bandwidth(word(value))
    except BadNumber:
        return None
