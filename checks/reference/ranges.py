"""Ranges and limits that several modules share."""

import re

MOST_TIME = 999_999_999_999_999_999
MOST_U64 = 2**64 - 1
MOST_MIN = 1_000_000
MOST_PRECISION = 1_000_000_000
MOST_SUM_BITS = 64
MOST_VECTOR_LEN = 1_024
MOST_VECTOR_BITS = 32
MOST_VECTOR_INPUT = 2_047
MOST_BUCKETS = 64
MOST_BOUNDS = 1_023

LIMIT_TASKS = 16                # limit 1
LIMIT_REPORTS = 50_000          # limit 2
LIMIT_REPORT_BYTES = 268_435_456  # limit 3
LIMIT_LINES = 1_000_000         # limit 4
LIMIT_SCRIPT_BYTES = 67_108_864  # limit 5

_NAME = re.compile(r"[a-z0-9_-]{1,32}")


def is_name(text):
    """1 to 32 characters out of a to z, 0 to 9, _ and -."""
    return _NAME.fullmatch(text) is not None


def strictly_ascending(numbers):
    return all(a < b for a, b in zip(numbers, numbers[1:]))
