"""Sealing, honest reports and verdicts."""

from dataclasses import dataclass

from aes_cmac import Prg, cmac, xor
from prio3 import HELPER, LEADER, Invalid, Prio3
from report import Report, put_name, put_number, read_report, write_report

NOT_OPENED = 4   # hpke_decrypt_error
NOT_PREPARED = 5  # vdaf_prep_error


class Tag(Exception):
    """Fewer than 16 bytes stand, or the tag differs."""


@dataclass(frozen=True)
class Head:
    """What a sealed share is bound to."""

    name: str
    id: bytes
    time: int
    public: bytes


def _covered(keys, role, id, data):
    """The bytes joined with the stream; this covers and uncovers."""
    stream = Prg(keys.enc, b"dap seal" + bytes([role]) + id)
    return xor(data, stream.next_bytes(len(data)))


def _tag(keys, role, head, ciphertext):
    return cmac(keys.mac, bytes([role]) + put_name(head.name) + head.id
                + put_number(head.time, 8) + put_number(len(head.public) % 2**32, 4)
                + head.public + ciphertext)


def seal(keys, role, head, plain):
    """The sealed bytes of plain bytes; role is LEADER or HELPER."""
    ciphertext = _covered(keys, role, head.id, plain)
    return ciphertext + _tag(keys, role, head, ciphertext)


def open(keys, role, head, sealed):
    """The plain bytes, or Tag."""
    if len(sealed) < 16:
        raise Tag
    ciphertext, tag = sealed[:-16], sealed[-16:]
    if tag != _tag(keys, role, head, ciphertext):
        raise Tag
    return _covered(keys, role, head.id, ciphertext)


def report_of_shares(task, id, time, shares):
    """The bytes of the report with these shares, sealed."""
    head = Head(task.name, id, time, shares.public)
    return write_report(Report(task.name, id, time, shares.public,
                               seal(task.leader, LEADER, head, shares.leader),
                               seal(task.helper, HELPER, head, shares.helper)))


def make_report(task, id, time, m, seed):
    """The honest report's bytes; BadValue or Spent where there is none."""
    return report_of_shares(task, id, time, Prio3(task.kind).shard(id, m, seed))


# --- Verdict ----------------------------------------------------------------

@dataclass(frozen=True)
class Failed:
    """A prepare step that failed, with its code."""

    code: int


@dataclass(frozen=True)
class Judged:
    """All that a task and a report come to.

    step      the helper's step: its prep share or Failed
    item      the leader's item: the prep message or Failed
    verdict   ("ok", content) or ("failed", code)
    outs      (leader's, helper's) out share bytes where the verdict is ok
    """

    step: object
    item: object
    verdict: tuple
    outs: tuple | None


def _init(task, head, role, sealed):
    """(state, prep share) of one node, or Failed."""
    keys = task.leader if role == LEADER else task.helper
    try:
        plain = open(keys, role, head, sealed)
    except Tag:
        return Failed(NOT_OPENED)
    try:
        return Prio3(task.kind).init(role, task.verify, head.id, head.public, plain)
    except Invalid:
        return Failed(NOT_PREPARED)


def _leader(task, report, step):
    """(item, the leader's out share or None), given the helper's step."""
    if isinstance(step, Failed):
        return step, None
    head = Head(report.name, report.id, report.time, report.public)
    own = _init(task, head, LEADER, report.leader)
    if isinstance(own, Failed):
        return own, None
    state, prep_share = own
    vdaf = Prio3(task.kind)
    try:
        message = vdaf.combine(prep_share, step)
        return message, vdaf.finish(state, message)
    except Invalid:
        return Failed(NOT_PREPARED), None


def helper_step(task, name, id, time, public, helper_bytes):
    """The helper's step: prep share bytes, or Failed."""
    prepared = _init(task, Head(name, id, time, public), HELPER, helper_bytes)
    return prepared if isinstance(prepared, Failed) else prepared[1]


def leader_item(task, report):
    """The leader's item: prep message bytes, or Failed."""
    return judge(task, report).item


def judge(task, report):
    """The verdict; the report as bytes or read."""
    if not isinstance(report, Report):
        report = read_report(report)
    head = Head(report.name, report.id, report.time, report.public)
    prepared = _init(task, head, HELPER, report.helper)
    step = prepared if isinstance(prepared, Failed) else prepared[1]
    item, leader_out = _leader(task, report, step)
    if isinstance(item, Failed):
        return Judged(step, item, ("failed", item.code), None)
    vdaf = Prio3(task.kind)
    try:
        helper_out = vdaf.finish(prepared[0], item)
    except Invalid:
        return Judged(step, item, ("failed", NOT_PREPARED), None)
    content = vdaf.content(leader_out, helper_out)
    return Judged(step, item, ("ok", content), (leader_out, helper_out))


def verdict(task, report):
    """("ok", content as a list of numbers), or ("failed", 4 or 5)."""
    return judge(task, report).verdict
