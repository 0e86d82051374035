"""Numbers of BANDWIDTH and METRIC (RFC 5440 sections 7.7 and 7.8): IEEE words read as whole numbers."""

BELOW = 1 << 48


def parts_of(word):
    """The fraction and the power of two of a word, or nothing where it is no number that counts."""
    exponent, fraction = word >> 23 & 0xFF, word & 0x7FFFFF
    if word == 0x80000000:
        return 0, 0
    if word >> 31 or exponent == 255:
        return None
    return (fraction, -149) if exponent == 0 else (fraction | 1 << 23, exponent - 150)


def bandwidth_of(word):
    """The bandwidth in whole bytes per second, rounded up, or nothing."""
    parts = parts_of(word)
    if parts is None:
        return None
    fraction, power = parts
    value = fraction << power if power >= 0 else -(-fraction >> -power)
    return value if value < BELOW else None


def bound_of(word):
    """The bound of a metric, rounded down, or nothing."""
    parts = parts_of(word)
    if parts is None:
        return None
    fraction, power = parts
    return min(fraction << power if power >= 0 else fraction >> -power, BELOW - 1)


def word_of(value):
    """The least word whose value isn't below this one."""
    if value == 0:
        return 0
    power = value.bit_length() - 24
    fraction = value << -power if power <= 0 else -(-value >> power)
    if fraction == 1 << 24:
        fraction, power = 1 << 23, power + 1
    return power + 150 << 23 | fraction & 0x7FFFFF


def raised(value):
    """The least bandwidth that a word can say and that isn't below this value, or nothing."""
    return bandwidth_of(word_of(value)) if value < BELOW else None
