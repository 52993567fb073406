"""The plain model."""

import copy
from dataclasses import dataclass, field

from aes_cmac import Spent
from batch import Span, bucket_of
from circuits import BadValue
from prio3 import Prio3
from report import Form, leading_name, read_report
from script import Collect, Measure, Now, TaskLine, Upload
from seal import make_report, verdict
from tasks import trial

EARLY_BY = 300


@dataclass
class State:
    """The state of a run.

    tasks      name -> Task: the known tasks
    moment     the moment or None
    accepted   (name, id) -> the accepted report's bytes
    ok         (name, bucket) -> {id: content}, of reports with verdict ok
    rejected   (name, bucket) -> set of ids
    collected  name -> set of Span
    """

    tasks: dict = field(default_factory=dict)
    moment: int | None = None
    accepted: dict = field(default_factory=dict)
    ok: dict = field(default_factory=dict)
    rejected: dict = field(default_factory=dict)
    collected: dict = field(default_factory=dict)

    def collected_holding(self, task, bucket):
        """The bucket lies in a collected batch of the task."""
        return any(bucket in span.all_buckets(task.precision)
                   for span in self.collected.get(task.name, ()))

    def add(self, task, report, data):
        """Adds an accepted report under its bucket by its verdict."""
        self.accepted[task.name, report.id] = data
        place = task.name, bucket_of(report.time, task.precision)
        word, value = verdict(task, report)
        if word == "ok":
            self.ok.setdefault(place, {})[report.id] = value
        else:
            self.rejected.setdefault(place, set()).add(report.id)


def tasks_of(file_tasks, lines):
    """The given tasks by name: those of the file, then those of the script."""
    tasks = {task.name: task for task in file_tasks}
    for line in lines:
        if isinstance(line, TaskLine):
            tasks[line.name] = trial(line.name, line.kind, line.min, line.precision,
                                     line.expires)
    return tasks


def opening(file_tasks, lines, stored=None):
    """The state before line 1, from nothing or from the stored state `stored`."""
    state = State() if stored is None else copy.deepcopy(stored)
    state.tasks = {**state.tasks, **tasks_of(file_tasks, lines)}
    state.moment = None
    return state


def offered(state, line):
    """(None, the bytes of the report that the line offers), or (cause, None)."""
    if isinstance(line, Measure):
        task = state.tasks.get(line.name)
        if task is None:
            return "task", None
        try:
            return None, make_report(task, line.id, line.time, line.value, line.seed)
        except (BadValue, Spent):
            return "value", None
    name = leading_name(line.report)
    if name is not None and name not in state.tasks:
        return "task", None
    try:
        read_report(line.report)
    except Form:
        return "form", None
    return None, line.report


def take(state, data):
    """Judges an offered report: its cause, or None where it was or is accepted."""
    report = read_report(data)
    task = state.tasks[report.name]
    known = state.accepted.get((task.name, report.id))
    if known == data:
        return None
    if state.moment is not None and report.time > state.moment + EARLY_BY:
        return "early"
    if state.moment is not None and task.expires is not None and state.moment >= task.expires:
        return "expired"
    if known is not None:
        return "conflict"
    if state.collected_holding(task, bucket_of(report.time, task.precision)):
        return "collected"
    state.add(task, report, data)
    return None


def collect(state, number, line):
    """The line that a `collect` prints."""
    task = state.tasks.get(line.name)
    if task is None:
        return f"refused {number} task"
    span = Span(line.start, line.buckets)
    if not span.passes_start(task.precision):
        return f"refused {number} start"
    batches = state.collected.setdefault(task.name, set())
    places = [(task.name, bucket) for bucket in span.all_buckets(task.precision)]
    contents = [content for place in places for content in state.ok.get(place, {}).values()]
    if span not in batches:
        sharing = [other for other in batches if span.shares(other, task.precision)]
        if sharing:
            least = min(sharing)
            return f"refused {number} overlap {least.start} {least.buckets}"
        if len(contents) < task.min:
            return f"small {task.name} {span.words()} reports {len(contents)}"
        batches.add(span)
    vdaf = Prio3(task.kind)
    total = [0] * vdaf.circuit.out_len
    for content in contents:
        total = vdaf.field.add(total, content)
    rejected = sum(len(state.rejected.get(place, ())) for place in places)
    return (f"collected {task.name} {span.words()} reports {len(contents)}"
            f" rejected {rejected} {vdaf.answer_words(total)}")


def step(state, number, line):
    """The state changes, and the printed line or None comes back."""
    if isinstance(line, Now):
        if state.moment is None or state.moment < line.t:
            state.moment = line.t
    elif isinstance(line, (Measure, Upload)):
        cause, data = offered(state, line)
        if cause is None:
            cause = take(state, data)
        if cause is not None:
            return f"refused {number} {cause}"
    elif isinstance(line, Collect):
        return collect(state, number, line)
    return None


def model_text(file_tasks, lines, stored=None):
    """(The printed lines, the state after the script)."""
    state = opening(file_tasks, lines, stored)
    printed = [step(state, number, line) for number, line in enumerate(lines, 1)]
    return [text for text in printed if text is not None], state
