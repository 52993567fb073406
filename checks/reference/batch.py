"""Buckets, lanes, checksums and batches."""

import hashlib
from dataclasses import dataclass

from ranges import MOST_TIME


def bucket_of(time, precision):
    """The time rounded down to a multiple of the precision."""
    return time // precision * precision


def lane_of(id, lanes):
    """The first byte of the identifier modulo the number of lanes."""
    return id[0] % lanes


def checksum(ids):
    """The XOR of SHA-256 over the identifiers, 32 bytes."""
    total = 0
    for id in ids:
        total ^= int.from_bytes(hashlib.sha256(id).digest(), "big")
    return total.to_bytes(32, "big")


@dataclass(frozen=True, order=True)
class Span:
    """A batch: a start and a number of buckets."""

    start: int
    buckets: int = 1

    def bucket(self, precision, i):
        return self.start + i * precision

    def all_buckets(self, precision):
        return [self.bucket(precision, i) for i in range(self.buckets)]

    def passes_start(self, precision):
        """The cause `start` doesn't apply to this batch."""
        return (self.start % precision == 0
                and self.bucket(precision, self.buckets - 1) <= MOST_TIME)

    def shares(self, other, precision):
        """One start is a bucket of the other batch."""
        return (self.start in other.all_buckets(precision)
                or other.start in self.all_buckets(precision))

    def words(self):
        """START, and BUCKETS where it is above 1."""
        return str(self.start) if self.buckets == 1 else f"{self.start} {self.buckets}"
