"""The two fields.

An element is a plain number from 0 to p - 1, a vector a list of them.
"""


class Field:
    """The numbers modulo p, with a generator of order 2^order_log."""

    def __init__(self, name, p, size, order_log, exponent):
        self.name = name
        self.p = p
        self.size = size
        self.order_log = order_log
        self.generator = pow(7, exponent, p)
        self.half = (p + 1) // 2
        assert pow(self.generator, 1 << order_log - 1, p) == p - 1

    def __repr__(self):
        return self.name

    def root(self, log):
        """An element of order 2^log."""
        return pow(self.generator, 1 << self.order_log - log, self.p)

    def inverse(self, value):
        """The inverse of an element other than 0."""
        return pow(value, -1, self.p)

    def add(self, a, b):
        """The sum of two vectors of one length."""
        return [(x + y) % self.p for x, y in zip(a, b, strict=True)]

    def sub(self, a, b):
        """The difference of two vectors of one length."""
        return [(x - y) % self.p for x, y in zip(a, b, strict=True)]

    def encode(self, vector):
        """The elements' bytes in order, each little-endian."""
        return b"".join(value.to_bytes(self.size, "little") for value in vector)

    def decode(self, data):
        """The vector of these bytes, or None where there is none."""
        if len(data) % self.size:
            return None
        vector = [int.from_bytes(data[i:i + self.size], "little")
                  for i in range(0, len(data), self.size)]
        return vector if all(value < self.p for value in vector) else None


Field64 = Field("Field64", 2**64 - 2**32 + 1, 8, 32, 4294967295)
Field128 = Field("Field128", 2**128 - 7 * 2**66 + 1, 16, 66, 4611686018427387897)
