"""Tasks, their keys, and the task file."""

import re
import tomllib
from dataclasses import dataclass

from aes_cmac import ZERO_BLOCK, cmac
from prio3 import Kind
from ranges import (MOST_BOUNDS, MOST_MIN, MOST_PRECISION, MOST_SUM_BITS, MOST_TIME,
                    MOST_VECTOR_BITS, MOST_VECTOR_INPUT, MOST_VECTOR_LEN, is_name,
                    strictly_ascending)

MOST_FILE_BYTES = 1_048_576
MOST_FILE_NUMBER = 9_223_372_036_854_775_807
LEAST_FILE_NUMBER = -9_223_372_036_854_775_808

HEX = re.compile(r"[0-9a-fA-F]*")


@dataclass(frozen=True)
class SealKeys:
    """The sealing key and the tag key of a node."""

    enc: bytes
    mac: bytes


@dataclass(frozen=True)
class Task:
    """A whole task; `expires` is None where it has no expiry."""

    name: str
    kind: Kind
    min: int
    precision: int
    verify: bytes
    leader: SealKeys
    helper: SealKeys
    expires: int | None = None


class TasksRefused(Exception):
    """The file is no task list: the task's number and the field."""

    def __init__(self, task, field):
        super().__init__(task, field)
        self.task = task
        self.field = field


def trial(name, kind, min, precision, expires=None):
    """The task of a `task` line, whose keys come from its name."""
    def key(label):
        return cmac(ZERO_BLOCK, label.encode("ascii") + b"\x00" + name.encode("ascii"))

    return Task(name, kind, min, precision, key("verify"),
                SealKeys(key("leader enc"), key("leader mac")),
                SealKeys(key("helper enc"), key("helper mac")), expires)


def task_line(task):
    """The task as its `task` line, without LF."""
    line = f"task {task.name} {task.kind.words()} {task.min} {task.precision}"
    return line if task.expires is None else f"{line} expires {task.expires}"


# --- The task file ----------------------------------------------------------

def read_tasks(data):
    """The tasks of the file's bytes, or TasksRefused."""
    tables = _tables(data)
    if tables is None:
        raise TasksRefused(0, "file")
    tasks = []
    for number, table in enumerate(tables, 1):
        tasks.append(_Reader(number, table).task({task.name for task in tasks}))
    return tasks


def _tables(data):
    """The tables of `task`, or None where the file isn't such TOML."""
    if len(data) > MOST_FILE_BYTES:
        return None
    try:
        document = tomllib.loads(data.decode("utf-8"))
    except (ValueError, RecursionError):  # no UTF-8 or no TOML
        return None
    if set(document) != {"task"} or not isinstance(document["task"], list):
        return None
    if not all(isinstance(table, dict) for table in document["task"]):
        return None
    return document["task"] if _numbers_fit(document) else None


def _numbers_fit(value):
    """Each whole number in it fits TOML's 64 bits with sign."""
    if isinstance(value, dict):
        return all(_numbers_fit(inner) for inner in value.values())
    if isinstance(value, list):
        return all(_numbers_fit(inner) for inner in value)
    if isinstance(value, int):
        return LEAST_FILE_NUMBER <= value <= MOST_FILE_NUMBER
    return True


class _Reader:
    """One table of the file, its keys taken in the order of the checks."""

    def __init__(self, number, table):
        self.number = number
        self.left = dict(table)

    def refuse(self, field):
        raise TasksRefused(self.number, field)

    def take(self, key, accepts):
        """The value of a key that must be there."""
        if key not in self.left:
            self.refuse(key)
        value = self.left.pop(key)
        if not accepts(value):
            self.refuse(key)
        return value

    def number_of(self, key, low, high):
        return self.take(key, lambda v: _is_number(v) and low <= v <= high)

    def hex_of(self, key, digits):
        text = self.take(key, lambda v: isinstance(v, str) and len(v) == digits
                         and HEX.fullmatch(v) is not None)
        return bytes.fromhex(text)

    def keys_of(self, key):
        both = self.hex_of(key, 64)
        return SealKeys(both[:16], both[16:])

    def task(self, earlier):
        """The task; `earlier` are the names of the tasks before it."""
        name = self.take("name", lambda v: isinstance(v, str) and is_name(v)
                         and v not in earlier)
        kind = self.kind()
        least = self.number_of("min", 1, MOST_MIN)
        precision = self.number_of("precision", 1, MOST_PRECISION)
        expires = None
        if "expires" in self.left:
            expires = self.number_of("expires", 0, MOST_TIME)
        verify = self.hex_of("verify", 32)
        leader = self.keys_of("leader")
        helper = self.keys_of("helper")
        if self.left:
            self.refuse(min(self.left))
        return Task(name, kind, least, precision, verify, leader, helper, expires)

    def kind(self):
        forms = ["count", "sum", "histogram", "vector"]
        form = self.take("kind", lambda v: isinstance(v, str) and v in forms)
        if form == "sum":
            return Kind.sum(self.number_of("bits", 1, MOST_SUM_BITS))
        if form == "histogram":
            return Kind.histogram(self.take("bounds", self.are_bounds))
        if form == "vector":
            length = self.number_of("len", 1, MOST_VECTOR_LEN)
            most = min(MOST_VECTOR_BITS, MOST_VECTOR_INPUT // length)
            return Kind.vector(length, self.number_of("bits", 1, most))
        return Kind.count()

    def are_bounds(self, value):
        return (isinstance(value, list) and 1 <= len(value) <= MOST_BOUNDS
                and all(_is_number(v) and 0 <= v <= MOST_FILE_NUMBER for v in value)
                and strictly_ascending(value))


def _is_number(value):
    return isinstance(value, int) and not isinstance(value, bool)
