"""Polynomials as lists of coefficients, least first.

`interpolate` and `mul` are the plain sums of the definition.  `ntt` and
`inverse` give the same values by halving; the tests compare them.
"""


def evaluate(field, polynomial, x):
    """The value at x."""
    value = 0
    for coefficient in reversed(polynomial):
        value = (value * x + coefficient) % field.p
    return value


def mul(field, a, b):
    """The product of two polynomials, both not empty."""
    product = [0] * (len(a) + len(b) - 1)
    for i, x in enumerate(a):
        for j, y in enumerate(b):
            product[i + j] = (product[i + j] + x * y) % field.p
    return product


def _log(length):
    log = length.bit_length() - 1
    assert length == 1 << log
    return log


def interpolate(field, values):
    """The polynomial below degree P with these P values at the powers of alpha."""
    back = field.inverse(field.root(_log(len(values))))
    scale = field.inverse(len(values))
    return [evaluate(field, values, pow(back, j, field.p)) * scale % field.p
            for j in range(len(values))]


def _transform(p, coefficients, root):
    if len(coefficients) == 1:
        return list(coefficients)
    even = _transform(p, coefficients[0::2], root * root % p)
    odd = _transform(p, coefficients[1::2], root * root % p)
    power, low, high = 1, [], []
    for x, y in zip(even, odd):
        low.append((x + power * y) % p)
        high.append((x - power * y) % p)
        power = power * root % p
    return low + high


def ntt(field, coefficients):
    """The values at the powers of the root of order P, P coefficients."""
    return _transform(field.p, coefficients, field.root(_log(len(coefficients))))


def inverse(field, values):
    """The coefficients that have these values: `interpolate`, faster."""
    root = field.inverse(field.root(_log(len(values))))
    scale = field.inverse(len(values))
    return [value * scale % field.p for value in _transform(field.p, values, root)]
