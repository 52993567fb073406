"""The script's grammar.

`read_script` gives one value per line; line number k is entry k - 1.
"""

import base64
import binascii
import re
from dataclasses import dataclass

from prio3 import Kind
from ranges import (MOST_BOUNDS, MOST_BUCKETS, MOST_MIN, MOST_PRECISION, MOST_SUM_BITS,
                    MOST_TIME, MOST_U64, MOST_VECTOR_BITS, MOST_VECTOR_INPUT,
                    MOST_VECTOR_LEN, is_name, strictly_ascending)

NUMBER = re.compile(r"0|[1-9][0-9]*")
HEX_32 = re.compile(r"[0-9a-f]{32}")


class ScriptRefused(Exception):
    """The first line that isn't in the grammar or names a known name again."""

    def __init__(self, line):
        super().__init__(line)
        self.line = line


class NotYet(Exception):
    """The first line that isn't run yet."""

    def __init__(self, line):
        super().__init__(line)
        self.line = line


class _Wrong(Exception):
    """The line isn't in the grammar."""


@dataclass(frozen=True)
class Blank:
    """An empty line or a comment."""


@dataclass(frozen=True)
class TaskLine:
    name: str
    kind: Kind
    min: int
    precision: int
    expires: int | None = None


@dataclass(frozen=True)
class Now:
    t: int


@dataclass(frozen=True)
class Measure:
    """`value` is the list of the line's numbers."""

    name: str
    id: bytes
    time: int
    value: tuple
    seed: bytes


@dataclass(frozen=True)
class Upload:
    report: bytes


@dataclass(frozen=True)
class Collect:
    name: str
    start: int
    buckets: int = 1


@dataclass(frozen=True)
class Restart:
    node: str


# --- Parts of a line --------------------------------------------------------

def _number(text, low, high):
    if NUMBER.fullmatch(text) is None or len(text) > 20:
        raise _Wrong
    value = int(text)
    if not low <= value <= high:
        raise _Wrong
    return value


def _name(text):
    if not is_name(text):
        raise _Wrong
    return text


def _hex_32(text):
    if HEX_32.fullmatch(text) is None:
        raise _Wrong
    return bytes.fromhex(text)


def _base64(text):
    """Standard alphabet with padding, canonical, not empty."""
    try:
        data = base64.b64decode(text, validate=True)
    except (binascii.Error, ValueError):
        raise _Wrong from None
    if not data or base64.b64encode(data).decode("ascii") != text:
        raise _Wrong
    return data


def _numbers(text, most):
    """1 to `most` numbers, each a u64, with commas between."""
    parts = text.split(",")
    if len(parts) > most:
        raise _Wrong
    return tuple(_number(part, 0, MOST_U64) for part in parts)


# --- Lines ------------------------------------------------------------------

def _task(parts):
    """`task NAME KIND MIN PRECISION [expires T]`."""
    if len(parts) < 2:
        raise _Wrong
    name, form, rest = _name(parts[0]), parts[1], list(parts[2:])
    expires = None
    if len(rest) >= 2 and rest[-2] == "expires":
        expires = _number(rest[-1], 0, MOST_TIME)
        rest = rest[:-2]
    lengths = {"count": 2, "sum": 3, "histogram": 3, "vector": 4}
    if len(rest) != lengths.get(form):
        raise _Wrong
    if form == "count":
        kind = Kind.count()
    elif form == "sum":
        kind = Kind.sum(_number(rest[0], 1, MOST_SUM_BITS))
    elif form == "histogram":
        bounds = _numbers(rest[0], MOST_BOUNDS)
        if not strictly_ascending(bounds):
            raise _Wrong
        kind = Kind.histogram(bounds)
    else:
        length = _number(rest[0], 1, MOST_VECTOR_LEN)
        bits = _number(rest[1], 1, MOST_VECTOR_BITS)
        if length * bits > MOST_VECTOR_INPUT:
            raise _Wrong
        kind = Kind.vector(length, bits)
    return TaskLine(name, kind, _number(rest[-2], 1, MOST_MIN),
                    _number(rest[-1], 1, MOST_PRECISION), expires)


def _measure(parts):
    name, id, time, value, seed = parts
    return Measure(_name(name), _hex_32(id), _number(time, 0, MOST_TIME),
                   _numbers(value, MOST_VECTOR_LEN), _hex_32(seed))


def _collect(parts):
    buckets = 1
    if len(parts) == 3:
        buckets = _number(parts[2], 1, MOST_BUCKETS)
        parts = parts[:2]
    name, start = parts
    return Collect(_name(name), _number(start, 0, MOST_TIME), buckets)


def _restart(parts):
    (node,) = parts
    if node not in ("leader", "helper"):
        raise _Wrong
    return Restart(node)


def _now(parts):
    (time,) = parts
    return Now(_number(time, 0, MOST_TIME))


def _upload(parts):
    (text,) = parts
    return Upload(_base64(text))


FORMS = {"task": _task, "measure": _measure, "collect": _collect, "restart": _restart,
         "now": _now, "upload": _upload}


def read_line(data):
    """The line of these bytes without its end, or None where it isn't in the grammar."""
    try:
        text = data.decode("ascii")
    except UnicodeDecodeError:
        return None
    if text == "" or text.startswith("#"):
        return Blank()
    word, *parts = text.split(" ")
    if word not in FORMS:
        return None
    try:
        return FORMS[word](parts)
    except (_Wrong, ValueError):  # ValueError: another number of parts
        return None


def split_lines(data):
    """The lines without their ends: LF, and one CR before it."""
    pieces = data.split(b"\n")
    last = pieces.pop()
    lines = [piece[:-1] if piece.endswith(b"\r") else piece for piece in pieces]
    return lines + [last] if last else lines


def read_script(data, names=()):
    """The script's lines, or ScriptRefused.

    `names` are those of the task file: a `task` line must not name one again.
    """
    lines, known = [], set(names)
    for number, piece in enumerate(split_lines(data), 1):
        line = read_line(piece)
        if line is None:
            raise ScriptRefused(number)
        if isinstance(line, TaskLine):
            if line.name in known:
                raise ScriptRefused(number)
            known.add(line.name)
        lines.append(line)
    return lines


# --- What isn't run yet -------------------------------------------------------

def refuse_not_yet(lines):
    """NotYet of the first restart."""
    for number, line in enumerate(lines, 1):
        if isinstance(line, Restart):
            raise NotYet(number)
