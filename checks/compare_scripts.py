#!/usr/bin/env python3
"""Runs the program and an independent one on generated task files and scripts, and tells where they differ.

    checks/compare_scripts.py [REFERENCE] [--scripts N] [--seed N]

REFERENCE, checks/reference/reference.py where none is given, is the path of a Python program with three commands:
`run [--tasks FILE] -` with a script on its standard input and `check FILE` print what the program must print, put the
text of the status on standard error and end with its number; `report --task-line LINE ID TIME VALUE SEED` and `report
--tasks FILE --name NAME ID TIME VALUE SEED` print an honest report in base64. Each pair of a file and a script is
drawn from the seed and its number: several tasks of every kind, some of the file's and some of the script's, with an
expiry or without, measurements and uploads with repeats, conflicts, changed bytes and values out of range, moments,
collections of one bucket or of several in any order, blank lines, comments and carriage returns, and now and then a
file or a line that is refused or isn't run yet. With --one-bucket no collection has several. Nothing is run in the
gate: this takes minutes.
"""

import argparse
import base64
import random
import subprocess
import sys
import tempfile
from pathlib import Path

TOP = Path(__file__).resolve().parent.parent
PROGRAM = TOP / "crates" / "dap_program" / "out" / "dap_program"
# The latest time of all.
LATEST = 999_999_999_999_999_999


class Task:
    """A task: its words, values that are of it or just outside it, and where it stands."""

    def __init__(self, draw, name):
        self.name = name
        self.form = draw.choice(["count", "sum", "histogram", "vector"])
        self.bits, self.bounds, self.length = None, None, None
        if self.form == "count":
            self.words, self.values = "count", [0, 1, 1, 2]
        elif self.form == "sum":
            self.bits = draw.choice([1, 2, 8, 32, 63, 64])
            greatest = 2 ** self.bits - 1
            above = greatest + 1 if self.bits < 64 else greatest
            self.words = f"sum {self.bits}"
            self.values = [0, 1, greatest, greatest, draw.randint(0, greatest), above]
        elif self.form == "vector":
            self.length, self.bits = draw.choice([(1, 1), (2, 8), (3, 32), (7, 5), (1, 32), (2, 32), (63, 32), (1024, 1)])
            greatest = 2 ** self.bits - 1
            self.words = f"vector {self.length} {self.bits}"
            whole = [self.numbers(draw, self.length, greatest) for _ in range(4)]
            self.values = whole + [self.numbers(draw, length, most) for length, most in [
                (self.length, greatest + 1), (min(1024, self.length + 1), greatest), (max(1, self.length - 1), greatest)]]
        else:
            bounds = sorted(draw.sample(range(200), draw.randint(1, 6)))
            if draw.randrange(12) == 0:
                bounds = list(range(draw.choice([63, 64, 65, 200])))
            if draw.randrange(5) == 0:
                bounds = sorted({*bounds, 2 ** 63 - 1})
            self.bounds = bounds
            self.words = "histogram " + ",".join(map(str, bounds))
            self.values = [bounds[0], bounds[-1], draw.choice(bounds), draw.randrange(250), 2 ** 64 - 1]
        self.least = draw.choice([1, 1, 2, 3])
        self.precision = draw.choice([1, 7, 100, 3600])
        self.expires = draw.choice([None, None, None, 0, 100, 101, 7000, LATEST])

    @staticmethod
    def numbers(draw, length, most):
        """A list of numbers, the greatest of which is there now and then."""
        return ",".join(str(draw.choice([0, most, draw.randint(0, most)])) for _ in range(length))

    def line(self):
        ending = "" if self.expires is None else f" expires {self.expires}"
        return f"task {self.name} {self.words} {self.least} {self.precision}{ending}"


class FileWriter:
    """Draws a task file."""

    def __init__(self, draw):
        self.draw = draw
        self.tasks = [Task(draw, f"f{i}{draw.choice(['', '-x', '_y'])}") for i in range(draw.randint(0, 3))]

    def hexed(self, count):
        text = self.draw.randbytes(count).hex()
        return text.upper() if self.draw.randrange(4) == 0 else text

    def fields(self, task):
        fields = {"name": f'"{task.name}"', "kind": f'"{task.form}"'}
        if task.length is not None:
            fields["len"] = str(task.length)
        if task.bits is not None:
            fields["bits"] = str(task.bits)
        if task.bounds is not None:
            fields["bounds"] = str(task.bounds)
        fields.update(min=str(task.least), precision=str(task.precision))
        if task.expires is not None:
            fields["expires"] = str(task.expires)
        fields.update(verify=f'"{self.hexed(16)}"', leader=f'"{self.hexed(32)}"', helper=f'"{self.hexed(32)}"')
        return fields

    def spoil(self, fields):
        """Makes one of the fields wrong, or adds one, or takes one away."""
        draw = self.draw
        key = draw.choice(sorted(fields))
        wrong = {
            "name": ['""', '"A"', '"' + "n" * 33 + '"', "7", '"f0"'],
            "kind": ['"mean"', "1", '"Count"'],
            "len": ["0", "1025", "2047", '"2"', "-1"],
            "bits": ["0", "33", "65", '"8"', "1.0", "-1"],
            "bounds": ["[]", "[2, 2]", "[3, 1]", "[-1]", '["1"]', str(list(range(1024)))],
            "min": ["0", "1000001", '"1"', "true"],
            "precision": ["0", "1000000001", "1e3"],
            "expires": ["-1", str(LATEST + 1), '"1"', "1.0", "[]"],
            "verify": ['"00"', f'"{"g" * 32}"', "0"],
            "leader": [f'"{"0" * 63}"', f'"{"0" * 66}"', '""'],
            "helper": [f'"{"0" * 32}"', "[]"],
        }
        pick = draw.randrange(4)
        if pick == 0:
            del fields[key]
        elif pick == 1:
            fields[draw.choice(["len", "bits", "bounds", "zeal", "Name", "expires", "Expires", "aim"])] = "3"
        elif pick == 2:
            fields[key] = "9223372036854775808"
        else:
            fields[key] = draw.choice(wrong.get(key, ["3"]))

    def text(self):
        draw = self.draw
        whole = draw.randrange(40)
        if whole == 0:
            return draw.choice(["", "task = 3\n", "task = [1]\n", "task = {}\n", "[task]\nname = \"v\"\n", "x = [\n"])
        if not self.tasks:
            return "task = []\n"
        lines = []
        for task in self.tasks:
            fields = self.fields(task)
            if draw.randrange(5) == 0:
                self.spoil(fields)
            lines.append("[[task]]")
            keys = list(fields)
            if draw.randrange(3) == 0:
                draw.shuffle(keys)
            lines += [f"{key} = {fields[key]}" for key in keys]
            if draw.randrange(3) == 0:
                lines.append("# between two tasks\n")
        if whole == 1:
            lines.insert(0, 'version = 1')
        return "\n".join(lines) + "\n"


class Writer:
    """Draws the lines of a script that is run beside a task file."""

    def __init__(self, draw, given, honest, several):
        self.draw = draw
        self.several = several
        self.given = given
        self.tasks = []
        self.offered = []
        self.honest = honest

    def chance(self, percent):
        return self.draw.randrange(100) < percent

    def task(self):
        taken = self.chance(1) and self.given
        name = self.draw.choice(self.given).name if taken else \
            f"{self.draw.choice('abcdegh')}{self.draw.choice(['', '-', '_1'])}{len(self.tasks)}"
        self.tasks.append(Task(self.draw, name))
        return self.tasks[-1].line()

    def measurement(self):
        task = self.draw.choice(self.tasks + self.given)
        identifier = f"{self.draw.randrange(40):032x}"
        time = self.draw.randrange(3 * task.precision)
        return task, identifier, time, self.draw.choice(task.values), f"{self.draw.getrandbits(128):032x}"

    def measure(self):
        if self.offered and self.chance(20):
            return self.draw.choice(self.offered)
        task, identifier, time, value, seed = self.measurement()
        name = "unknown" if self.chance(4) else task.name
        line = f"measure {name} {identifier} {time} {value} {seed}"
        self.offered.append(line)
        return line

    def upload(self):
        if self.chance(15):
            return "upload " + self.draw.choice(["Zg==", "Zm9vYmFy", "AAAA", "AXgA", "AmZ4AA==", "AUE="])
        task, identifier, time, value, seed = self.measurement()
        report = self.honest(task, identifier, time, value, seed)
        if report is None:
            return "# a measurement without shares"
        report = bytearray(base64.b64decode(report))
        pick = self.draw.randrange(10)
        if pick == 0:
            report[-1] ^= 1
        elif pick == 1:
            report[self.draw.randrange(len(report))] ^= 1 << self.draw.randrange(8)
        elif pick == 2:
            del report[-1:]
        elif pick == 3:
            report.append(0)
        line = "upload " + base64.b64encode(bytes(report)).decode("ascii")
        self.offered.append(line)
        return line

    def collect(self):
        task = self.draw.choice(self.tasks + self.given)
        name = "unknown" if self.chance(4) else task.name
        start = task.precision * self.draw.randrange(3) + (1 if self.chance(5) else 0)
        if self.chance(3):
            start = LATEST // task.precision * task.precision
        if self.chance(10):
            return f"collect {name} {start} 1"
        if self.several and self.chance(45):
            return f"collect {name} {start} {self.draw.choice([2, 2, 2, 3, 3, 4, 64])}"
        return f"collect {name} {start}"

    def now(self):
        return f"now {self.draw.choice([0, 1, 99, 100, 1000, 6999, 7000, LATEST])}"

    def nothing(self):
        return self.draw.choice(["", "#", "# a comment", "#collect a 0", "#\t\r"])

    def refused(self):
        name = self.tasks[0].name
        return self.draw.choice([
            "measur v", " ", "collect", f"collect {name} 01", f"collect {name}  0", f"collect {name} 0 ",
            f"collect {name} 0 0", f"collect {name} 0 65", f"collect {name} 0 01", f"collect {name} 0 1 1",
            "task x count 1 1 expires", f"task x count 1 1 expires {LATEST + 1}", "task x count 1 1 expires 1 2",
            f"task {name} count 1 1", "task A count 1 1", "task x sum 65 1 1", "task x sum 0 1 1",
            "task x vector 0 1 1 1", "task x vector 1 33 1 1", "task x vector 64 32 1 1", "task x vector 1025 1 1 1",
            f"measure {name} {'0' * 32} 0 1,,2 {'0' * 32}", f"measure {name} {'0' * 32} 0 {'0,' * 1024}0 {'0' * 32}",
            "task x histogram 2,2 1 1", "task x histogram 1, 1 1", "task x count 0 1", "task x count 1 1000000001",
            f"measure {name} 0 0 0 0", "now 1000000000000000000", "upload", "upload Zg", "upload Zh==",
            "restart", "restart both", "# \u00e9", "\r",
        ])

    def later(self):
        return self.draw.choice(["restart leader", "restart helper"])

    def lines(self):
        many = self.chance(3)
        lines = [self.task() for _ in range(self.draw.randint(14, 18) if many else self.draw.randint(1, 3))]
        for _ in range(self.draw.randint(0, 40)):
            pick = self.draw.randrange(100)
            if pick < 55:
                lines.append(self.measure())
            elif pick < 68:
                lines.append(self.upload())
            elif pick < 86:
                lines.append(self.collect())
            elif pick < 91:
                lines.append(self.nothing())
            elif pick < 94:
                lines.append(self.task())
            elif pick < 96:
                lines.append(self.now())
            elif self.chance(10):
                lines.append(self.refused())
            elif self.chance(15):
                lines.append(self.later())
        return lines

    def script(self):
        ends = self.draw.choice([["\n"], ["\n"], ["\r\n"], ["\n", "\r\n"]])
        text = "".join(line + self.draw.choice(ends) for line in self.lines())
        if self.chance(30):
            text = text.removesuffix("\n")
        return text.encode("utf-8")


def run(command, script=b""):
    done = subprocess.run(command, input=script, capture_output=True, check=False)
    return done.returncode, done.stdout, done.stderr


class Comparison:
    """Compares what both programs answer, and counts."""

    def __init__(self, reference):
        self.reference = [sys.executable, str(reference)]
        self.statuses = {}
        self.differ = 0

    def honest(self, path, given):
        """What makes the honest reports of tasks, of which these are the file's."""
        def report(task, *rest):
            words = ["--tasks", path, "--name", task.name] if task in given else ["--task-line", task.line()]
            status, out, _ = run([*self.reference, "report", *words, *map(str, rest)])
            return out.strip() if status == 0 and out.strip() else None
        return report

    def compare(self, what, ours, theirs, script=b""):
        ours, theirs = run([str(PROGRAM), *ours], script), run([*self.reference, *theirs], script)
        self.statuses[theirs[0]] = self.statuses.get(theirs[0], 0) + 1
        if ours != theirs:
            self.differ += 1
            print(f"{what} differs: ours {ours}, the reference {theirs}", flush=True)


def main():
    parser = argparse.ArgumentParser(description=__doc__.splitlines()[0])
    parser.add_argument("reference", type=Path, nargs="?", default=TOP / "checks" / "reference" / "reference.py")
    parser.add_argument("--scripts", type=int, default=200)
    parser.add_argument("--seed", type=int, default=0)
    parser.add_argument("--one-bucket", action="store_true", help="no collection of several buckets")
    given = parser.parse_args()
    # This builds the program where that is still to be done.
    subprocess.run([str(TOP / "dap"), "run"], input=b"", capture_output=True, check=True)
    files, scripts = (Comparison(given.reference) for _ in range(2))
    with tempfile.TemporaryDirectory() as folder:
        path = str(Path(folder) / "tasks")
        for number in range(given.scripts):
            draw = random.Random(f"{given.seed} {number}")
            file = FileWriter(draw)
            Path(path).write_text(file.text(), encoding="utf-8")
            files.compare(f"file {number}", ["check", path], ["check", path])
            reads = run([*files.reference, "check", path])[0] == 0
            # A file that is refused is run beside a script now and then.
            beside = draw.randrange(2) == 0 and (reads or draw.randrange(4) == 0)
            own = file.tasks if beside and reads else []
            script = Writer(draw, own, scripts.honest(path, own), not given.one_bucket).script()
            words, options = (["run", path], ["--tasks", path]) if beside else (["run"], [])
            scripts.compare(f"script {number}", words, ["run", *options, "-"], script)
    for what, done in [("files", files), ("scripts", scripts)]:
        told = ", ".join(f"{count} with status {status}" for status, count in sorted(done.statuses.items()))
        print(f"{given.scripts} {what} ({told}): {done.differ} differ")
    return 1 if files.differ or scripts.differ else 0


if __name__ == "__main__":
    sys.exit(main())
