"""A surveyed point's place on the grid (request (x)), by exact arithmetic: each product and sum is a fraction, rounded once to a double, and the
grid's number is the nearest whole number of a fraction, halves away from zero. No operation on doubles is used where a number is finite.

As a program it holds them against what the Rust's doubles give in `both cases survey`, given on standard input: the bits of a to f, x and y in
hex, a tab, and the grid's x and y, or `none` for a number that the grid does not have.
"""

import math
import struct
import sys
from fractions import Fraction

from cases import LIMIT


def of_bits(bits):
    return struct.unpack("<d", struct.pack("<Q", bits))[0]


def rounded(exact):
    """The double nearest to a fraction, ties to even, subnormals kept: Python divides whole numbers so."""
    try:
        return exact.numerator / exact.denominator
    except OverflowError:
        return math.inf if exact > 0 else -math.inf


def product(a, b):
    if math.isfinite(a) and math.isfinite(b):
        return rounded(Fraction(a) * Fraction(b))
    if math.isnan(a) or math.isnan(b) or a == 0 or b == 0:
        return math.nan
    return math.inf if (a > 0) == (b > 0) else -math.inf


def total(a, b):
    if math.isfinite(a) and math.isfinite(b):
        return rounded(Fraction(a) + Fraction(b))
    if math.isnan(a) or math.isnan(b) or a == -b:
        return math.nan
    return a if math.isinf(a) else b


def whole(number):
    """The grid's number of a double, or None."""
    if not math.isfinite(number):
        return None
    nearest = math.floor(abs(Fraction(number)) + Fraction(1, 2))
    if nearest > LIMIT:
        return None
    return -nearest if number < 0 else nearest


def along(a, b, c, x, y):
    return whole(total(total(product(a, x), product(b, y)), c))


def grid(coefficients, x, y):
    """The grid's x and y; None for one that it does not have."""
    a, b, c, d, e, f = coefficients
    return along(a, b, c, x, y), along(d, e, f, x, y)


def main():
    count = 0
    for line in sys.stdin:
        case, answer = line.rstrip("\n").split("\t")
        *coefficients, x, y = (of_bits(int(bits, 16)) for bits in case.split())
        told = " ".join("none" if n is None else str(n) for n in grid(coefficients, x, y))
        if told != answer:
            sys.exit(f"{case}: {told}, by the Rust {answer}")
        count += 1
    if count == 0:
        sys.exit("no surveyed points given")
    print(f"the grid points of mapping.py for {count} surveyed points are those of the Rust's doubles")


if __name__ == "__main__":
    main()
