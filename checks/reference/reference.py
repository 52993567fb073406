#!/usr/bin/env python3
"""A plain second writing of the whole service, in Python, made from its description and not from its sources.

    reference.py run [--tasks FILE] SCRIPT                SCRIPT may be -
    reference.py check FILE
    reference.py load N SEED
    reference.py report TASK ID TIME VALUE SEED           prints base64
    reference.py vectors TASK ID VALUE SEED               prints `name: hex` lines

TASK is `--task-line LINE` for a trial task, or `--tasks FILE --name NAME`.
The first three print what the program prints, put the status's text on
standard error and end with its number.
"""

import argparse
import base64
import sys
from dataclasses import dataclass

import model
from prio3 import HELPER, LEADER, Prio3
from ranges import (LIMIT_LINES, LIMIT_REPORT_BYTES, LIMIT_REPORTS,
                    LIMIT_SCRIPT_BYTES, LIMIT_TASKS)
from script import (Collect, Measure, NotYet, Restart, ScriptRefused, TaskLine, Upload,
                    read_line, read_script, refuse_not_yet, split_lines)
from seal import make_report
from tasks import TasksRefused, read_tasks, task_line, trial

MOST_LOAD = 50_000


@dataclass
class Answer:
    """A status with the text on standard output and that after `dap: `."""

    status: int
    output: str = ""
    text: str = ""
    state: object = None


class Limit(Exception):
    """A limit would be passed at a line."""

    def __init__(self, line, limit):
        super().__init__(line, limit)
        self.line = line
        self.limit = limit


def run(script, file=None, stored=None):
    """The answer of a run over the bytes of a script and of a task file.

    `stored` is the plain state that the opening journals give, or None.
    """
    printed = []
    try:
        file_tasks = [] if file is None else read_tasks(file)
        lines = _lines(script, [task.name for task in file_tasks])
        differs = _differing(file_tasks, lines, stored)
        if differs is not None:
            return Answer(10, "", f"task differs: {differs}")
        _limit_tasks(file_tasks, lines, stored)
        state = model.opening(file_tasks, lines, stored)
        _segments(state, lines, printed)
    except TasksRefused as refused:
        return Answer(2, "", f"tasks refused: task {refused.task} field {refused.field}")
    except ScriptRefused as refused:
        return Answer(3, "", f"script refused: line {refused.line}")
    except NotYet as not_yet:
        return Answer(13, "", f"not yet: line {not_yet.line}")
    except Limit as passed:
        return Answer(11, _text(printed), f"limit {passed.limit} at line {passed.line}")
    return Answer(0, _text(printed), "", state)


def _text(lines):
    return "".join(line + "\n" for line in lines)


def _lines(script, names):
    """The script's lines, limits 5 and 4 being tested before the grammar."""
    if len(script) > LIMIT_SCRIPT_BYTES:
        raise Limit(0, 5)
    if len(split_lines(script)) > LIMIT_LINES:
        raise Limit(LIMIT_LINES + 1, 4)
    lines = read_script(script, names)
    refuse_not_yet(lines)
    return lines


def _differing(file_tasks, lines, stored):
    """The first given task whose stored one has other fields, file before script."""
    if stored is not None:
        for name, task in model.tasks_of(file_tasks, lines).items():
            if stored.tasks.get(name, task) != task:
                return name
    return None


def _limit_tasks(file_tasks, lines, stored):
    """Limit 1 over the stored tasks, the file's and the script's."""
    names = {task.name for task in file_tasks}
    if stored is not None:
        names.update(stored.tasks)
    if len(names) > LIMIT_TASKS:
        raise Limit(0, 1)
    for number, line in enumerate(lines, 1):
        if isinstance(line, TaskLine):
            names.add(line.name)
            if len(names) > LIMIT_TASKS:
                raise Limit(number, 1)


def _segments(state, lines, printed):
    """The lines in order; a segment's text is printed at its end."""
    reports = report_bytes = 0
    segment = []
    for number, line in enumerate(lines, 1):
        if isinstance(line, (Measure, Upload)):
            cause, data = model.offered(state, line)
            if cause is None:
                reports += 1
                report_bytes += len(data)
                if reports > LIMIT_REPORTS:
                    raise Limit(number, 2)
                if report_bytes > LIMIT_REPORT_BYTES:
                    raise Limit(number, 3)
                cause = model.take(state, data)
            text = None if cause is None else f"refused {number} {cause}"
        else:
            text = model.step(state, number, line)
        if text is not None:
            segment.append(text)
        if isinstance(line, (Collect, Restart)):
            printed += segment
            segment = []
    printed += segment


def check(file):
    """The answer of `check` over a file's bytes."""
    try:
        return Answer(0, _text(task_line(task) for task in read_tasks(file)))
    except TasksRefused as refused:
        return Answer(2, "", f"tasks refused: task {refused.task} field {refused.field}")


def load(n, seed):
    """The text of `load N SEED`."""
    lines = ["task load sum 16 1 3600"]
    for i in range(n):
        id = f"{i % 256:02x}{i:030x}"
        lines.append(f"measure load {id} {i % 7200} {(i * i + seed) % 65536}"
                     f" {seed:016x}{i:016x}")
    lines += ["collect load 0", "collect load 3600"]
    return _text(lines)


def vectors(task, id, m, seed):
    """The values on the way of one measurement, as (name, bytes)."""
    vdaf = Prio3(task.kind)
    made = vdaf.sharding(id, vdaf.circuit.encode(m), seed)
    encode = vdaf.field.encode
    shares = made.shares
    state_l, prep_l = vdaf.init(LEADER, task.verify, id, shares.public, shares.leader)
    state_h, prep_h = vdaf.init(HELPER, task.verify, id, shares.public, shares.helper)
    message = vdaf.combine(prep_l, prep_h)
    out_l, out_h = vdaf.finish(state_l, message), vdaf.finish(state_h, message)
    return [("verify", task.verify), ("k_meas", made.k_meas), ("k_proof", made.k_proof),
            ("k_prove", made.k_prove), ("blind_l", made.blind_l), ("blind_h", made.blind_h),
            ("x", encode(made.x)), ("x_h", encode(made.x_h)), ("x_l", encode(made.x_l)),
            ("part_l", made.part_l), ("part_h", made.part_h),
            ("joint_seed", made.joint_seed), ("joint", encode(made.joint)),
            ("wire_seeds", encode(made.wire_seeds)), ("proof", encode(made.proof)),
            ("proof_h", encode(made.proof_h)), ("proof_l", encode(made.proof_l)),
            ("public_share", shares.public), ("leader_share", shares.leader),
            ("helper_share", shares.helper), ("prep_share_l", prep_l),
            ("prep_share_h", prep_h), ("prep_message", message), ("out_l", out_l),
            ("out_h", out_h), ("content", encode(vdaf.content(out_l, out_h)))]


# --- Command line -----------------------------------------------------------

def _parser():
    parser = argparse.ArgumentParser(prog="reference.py")
    commands = parser.add_subparsers(dest="command", required=True)
    sub = commands.add_parser("run")
    sub.add_argument("--tasks")
    sub.add_argument("script")
    sub = commands.add_parser("check")
    sub.add_argument("file")
    sub = commands.add_parser("load")
    sub.add_argument("n", type=int)
    sub.add_argument("seed", type=int)
    for command, parts in (("report", ("id", "time", "value", "seed")),
                           ("vectors", ("id", "value", "seed"))):
        sub = commands.add_parser(command)
        sub.add_argument("--task-line")
        sub.add_argument("--tasks")
        sub.add_argument("--name")
        for part in parts:
            sub.add_argument(part)
    return parser


def _read(name):
    """The bytes of a file, `-` being standard input; None where it can't be read."""
    try:
        if name == "-":
            return sys.stdin.buffer.read()
        with open(name, "rb") as file:
            return file.read()
    except OSError:
        return None


def _end(answer):
    """Prints an answer and gives the number to end with."""
    sys.stdout.write(answer.output)
    sys.stdout.flush()
    if answer.text:
        print(f"dap: {answer.text}", file=sys.stderr)
    return answer.status


def _task_of(arguments):
    if arguments.task_line is not None:
        line = read_line(arguments.task_line.encode())
        if not isinstance(line, TaskLine):
            raise SystemExit("no task line")
        return trial(line.name, line.kind, line.min, line.precision, line.expires)
    for task in read_tasks(_read(arguments.tasks)):
        if task.name == arguments.name:
            return task
    raise SystemExit("no such task")


def main(words):
    arguments = _parser().parse_args(words)
    if arguments.command == "load":
        if not 1 <= arguments.n <= MOST_LOAD:
            return _end(Answer(1, "", "usage: word 2"))
        if not 0 <= arguments.seed < 2**64:
            return _end(Answer(1, "", "usage: word 3"))
        return _end(Answer(0, load(arguments.n, arguments.seed)))
    if arguments.command in ("run", "check"):
        script = b"" if arguments.command == "check" else _read(arguments.script)
        name = arguments.file if arguments.command == "check" else arguments.tasks
        file = None if name is None else _read(name)
        if name is not None and file is None:
            return _end(Answer(4, "", "read fault"))
        if arguments.command == "check":
            return _end(check(file))
        answer = run(script or b"", file)
        if script is None and answer.status != 2:
            answer = Answer(4, "", "read fault")
        return _end(answer)
    task = _task_of(arguments)
    id, seed = bytes.fromhex(arguments.id), bytes.fromhex(arguments.seed)
    value = [int(part) for part in arguments.value.split(",")]
    if arguments.command == "report":
        data = make_report(task, id, int(arguments.time), value, seed)
        print(base64.b64encode(data).decode("ascii"))
    else:
        for label, data in vectors(task, id, value, seed):
            print(f"{label}: {data.hex()}")
    return 0


if __name__ == "__main__":
    sys.exit(main(sys.argv[1:]))
