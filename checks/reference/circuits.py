"""The circuits.

A measurement is a list of numbers; of Count, Sum and Histogram it is a list
of one.  `encode` takes such a list, or a number in place of a list of one.
Calls count from 1, wires and elements from 0.
"""

from fields import Field64, Field128

U64_MOST = 2**64 - 1


class BadValue(Exception):
    """The measurement isn't of the kind."""


def _bits_of(number, bits):
    """The bits of a number, least first."""
    return [number >> i & 1 for i in range(bits)]


def _number_of(field, elements):
    """The sum of 2^i * x_i."""
    return sum(x << i for i, x in enumerate(elements)) % field.p


def _powers_sum(field, r, results):
    """The sum of r^(i+1) * G_(i+1)."""
    total, power = 0, 1
    for result in results:
        power = power * r % field.p
        total = (total + power * result) % field.p
    return total


class Circuit:
    """What all circuits have in common."""

    field = Field128
    arity = 1

    def _number(self, m):
        """The one number of a measurement that is a list of one."""
        numbers = [m] if isinstance(m, int) else list(m)
        if len(numbers) != 1:
            raise BadValue
        return numbers[0]

    def gadget(self, wires):
        """a * a - a, of one wire."""
        (a,) = wires
        return (a * a - a) % self.field.p

    def input(self, x, call, wire):
        """x_i for each i."""
        return x[call - 1]


class Count(Circuit):
    """A measurement 0 or 1; the answer is how many were 1."""

    kind_byte = 0
    field = Field64
    arity = 2
    input_len = out_len = calls = 1
    joint_len = 0

    def encode(self, m):
        number = self._number(m)
        if number not in (0, 1):
            raise BadValue
        return [number]

    def truncate(self, x):
        return [x[0]]

    def input(self, x, call, wire):
        return x[0]

    def gadget(self, wires):
        a, b = wires
        return a * b % self.field.p

    def validity(self, one, x, joint, results):
        return (results[0] - x[0]) % self.field.p


class Sum(Circuit):
    """A number below 2^bits; the answer is the sum."""

    kind_byte = 1
    out_len = joint_len = 1

    def __init__(self, bits):
        self.bits = self.input_len = self.calls = bits

    def encode(self, m):
        number = self._number(m)
        if not 0 <= number < 1 << self.bits:
            raise BadValue
        return _bits_of(number, self.bits)

    def truncate(self, x):
        return [_number_of(self.field, x)]

    def validity(self, one, x, joint, results):
        return _powers_sum(self.field, joint[0], results)


class Histogram(Circuit):
    """Every u64; the answer is how many fell in each bucket."""

    kind_byte = 2
    joint_len = 2

    def __init__(self, bounds):
        self.bounds = tuple(bounds)
        self.input_len = self.out_len = self.calls = len(self.bounds) + 1

    def encode(self, m):
        number = self._number(m)
        if not 0 <= number <= U64_MOST:
            raise BadValue
        bucket = len(self.bounds)
        for i, bound in enumerate(self.bounds):
            if number <= bound:
                bucket = i
                break
        return [1 if i == bucket else 0 for i in range(self.input_len)]

    def truncate(self, x):
        return list(x)

    def validity(self, one, x, joint, results):
        r0, r1 = joint
        a = _powers_sum(self.field, r0, results)
        b = (sum(x) - one) % self.field.p
        return (r1 * a + r1 * r1 * b) % self.field.p


class Vector(Circuit):
    """A list of len numbers below 2^bits; the answer is the list of sums."""

    kind_byte = 3
    joint_len = 1

    def __init__(self, len, bits):
        self.out_len = len
        self.bits = bits
        self.input_len = self.calls = len * bits

    def encode(self, m):
        numbers = [m] if isinstance(m, int) else list(m)
        if len(numbers) != self.out_len:
            raise BadValue
        if not all(0 <= number < 1 << self.bits for number in numbers):
            raise BadValue
        return [bit for number in numbers for bit in _bits_of(number, self.bits)]

    def truncate(self, x):
        return [_number_of(self.field, x[j * self.bits:(j + 1) * self.bits])
                for j in range(self.out_len)]

    def validity(self, one, x, joint, results):
        return _powers_sum(self.field, joint[0], results)
