"""The additive group that goes with each p, and products of the fields that the arrays here need.

Elements are written as document 01 writes them. For 4 and 8 the bits of an element are the
coefficients of 1, w, w^2, with w^2 = w + 1 and w^3 = w + 1; for 9 its digits in base 3 are those of
1 and w. So sums and differences go digit by digit there. For every other p they are modulo p, which
is the field's where p is a prime (request K2).
"""

BASES = {4: 2, 8: 2, 9: 3}
POLYNOMIALS = {4: 0b111, 8: 0b1011}


def group_sum(p, x, y):
    return digit_by_digit(p, x, y) if p in BASES else (x + y) % p


def group_difference(p, x, y):
    """x minus y."""
    return digit_by_digit(p, x, y, -1) if p in BASES else (x - y) % p


def digit_by_digit(p, x, y, sign=1):
    base, total, place = BASES[p], 0, 1
    while place < p:
        total += (x // place + sign * (y // place)) % base * place
        place *= base
    return total


def field_product(s, x, y):
    """For a prime number of elements, 4 or 8."""
    return product_of_bits(x, y, POLYNOMIALS[s]) if s in POLYNOMIALS else x * y % s


def product_of_bits(x, y, polynomial):
    """x times y, the factor w taken once for each bit of y and reduced at once."""
    total = 0
    while y:
        if y & 1:
            total ^= x
        x, y = x << 1, y >> 1
        if x.bit_length() == polynomial.bit_length():
            x ^= polynomial
    return total


def row_times(s, row, coefficients):
    """The sum of the products of a row's elements and the coefficients."""
    total = 0
    for x, k in zip(row, coefficients):
        total = group_sum(s, total, field_product(s, x, k))
    return total
