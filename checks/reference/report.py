"""The grammar of reports and the place of Form.

`Reader` and the `put` functions are the grammar's fields, which messages
and records use too.
"""

from dataclasses import dataclass

from ranges import MOST_TIME, is_name

MOST_PUBLIC = 32_000
MOST_LEADER = 131_072
MOST_HELPER = 32_000


class Form(Exception):
    """The bytes aren't of the form; `at` is the place."""

    def __init__(self, at):
        super().__init__(at)
        self.at = at


class Reader:
    """Reads field by field from the left."""

    def __init__(self, data):
        self.data = bytes(data)
        self.place = 0

    def take(self, n, allowed=lambda field: True):
        """A field of n bytes whose value is allowed."""
        if len(self.data) - self.place < n:
            raise Form(len(self.data))
        field = self.data[self.place:self.place + n]
        if not allowed(field):
            raise Form(self.place)
        self.place += n
        return field

    def number(self, size, low=0, high=None):
        """A big-endian number of `size` bytes from low to high."""
        high = 256**size - 1 if high is None else high
        return int.from_bytes(
            self.take(size, lambda field: low <= int.from_bytes(field, "big") <= high), "big")

    def u8(self, low=0, high=None):
        return self.number(1, low, high)

    def u16(self, low=0, high=None):
        return self.number(2, low, high)

    def u32(self, low=0, high=None):
        return self.number(4, low, high)

    def u64(self, low=0, high=None):
        return self.number(8, low, high)

    def time(self):
        return self.u64(0, MOST_TIME)

    def name(self):
        length = self.u8(1, 32)
        return self.take(length, lambda field: is_name(field.decode("latin-1"))).decode("ascii")

    def id(self):
        return self.take(16)

    def bytes_of(self, most):
        """`bytes(most)`: a u32 length and that many bytes."""
        return self.take(self.u32(0, most))

    def end(self):
        """Nothing is left over."""
        if self.place != len(self.data):
            raise Form(self.place)


def put_number(value, size):
    return value.to_bytes(size, "big")


def put_name(name):
    return bytes([len(name)]) + name.encode("ascii")


def put_bytes(data):
    return put_number(len(data), 4) + data


@dataclass(frozen=True)
class Report:
    """A report; leader and helper are the sealed input shares."""

    name: str
    id: bytes
    time: int
    public: bytes
    leader: bytes
    helper: bytes


def read_report(data):
    """The report of these bytes, or Form."""
    reader = Reader(data)
    name = reader.name()
    id = reader.id()
    time = reader.time()
    reader.u16(0, 0)
    public = reader.bytes_of(MOST_PUBLIC)
    leader = reader.bytes_of(MOST_LEADER)
    helper = reader.bytes_of(MOST_HELPER)
    reader.end()
    return Report(name, id, time, public, leader, helper)


def write_report(report):
    """The one spelling of a report."""
    return (put_name(report.name) + report.id + put_number(report.time, 8)
            + put_number(0, 2) + put_bytes(report.public) + put_bytes(report.leader)
            + put_bytes(report.helper))


def leading_name(data):
    """The name of the whole name field with which the bytes begin, or None."""
    try:
        return Reader(data).name()
    except Form:
        return None
