#!/usr/bin/env python3
"""Times the program on generated scripts of one task each, in reports per second, beside a peer.

    bench/reports.py [--rounds N]

A script measures 1,000, 5,000 or 20,000 reports of a count, of a sum of 16 bits or of a histogram with 4 buckets, whose
times fall into two batches, and collects the batches. Each time is the best of some rounds, of the whole program, from
its start to its end. The peer, bench/peer/prio3.rs, does the same arithmetic without proofs, and is compiled where rustc
is there: called with `bench N`, it prints for each kind a line whose first word begins with the kind's name, and which
ends its rate of sharding and preparing both halves with `all NUMBER/s`. It neither seals nor reads reports, keeps no
batches and reads no script. The growth is how
much a report costs in comparison with the same kind's shortest script. Nothing is asserted.
"""

import argparse
import re
import shutil
import subprocess
import sys
import tempfile
import time
from pathlib import Path

TOP = Path(__file__).resolve().parent.parent
SIZES = [1_000, 5_000, 20_000]
# A kind's name, its words in the task line, and the measurement of report i.
KINDS = [
    ("count", "count", lambda i: i % 2),
    ("sum", "sum 16", lambda i: (i * i + 1) % 65536),
    ("histogram", "histogram 10,20,30", lambda i: i % 40),
]


def script(words, value, reports):
    lines = [f"task load {words} 1 3600"]
    for i in range(reports):
        lines.append(f"measure load {i % 256:02x}{i:030x} {i % 7200} {value(i)} {1:016x}{i:016x}")
    lines += ["collect load 0", "collect load 3600"]
    return "\n".join(lines) + "\n"


def best_time(path, rounds):
    """The best time of so many runs, each of which has to end well."""
    times = []
    for _ in range(rounds):
        with open(path, "rb") as source:
            start = time.perf_counter()
            done = subprocess.run([TOP / "dap", "run"], stdin=source, capture_output=True, check=False)
            times.append(time.perf_counter() - start)
        if done.returncode != 0 or len(done.stdout.splitlines()) != 2:
            sys.exit(f"the program ended with {done.returncode}: {done.stderr.decode()}{done.stdout.decode()[:200]}")
    return min(times)


def peer_rates():
    """The peer's reports per second for each kind; none where there is no rustc."""
    if shutil.which("rustc") is None:
        return {}
    with tempfile.TemporaryDirectory() as scratch:
        peer = Path(scratch) / "peer"
        source = TOP / "bench" / "peer" / "prio3.rs"
        subprocess.run(["rustc", "-O", "-A", "warnings", source, "-o", peer], capture_output=True, check=True)
        told = subprocess.run([peer, "bench", "5000"], capture_output=True, check=True, text=True).stdout
    rates = {}
    for line in told.splitlines():
        rate = re.search(r"\ball +(\d+)/s", line)
        for name, _, _ in KINDS:
            if rate and line.startswith(name):
                rates[name] = int(rate[1])
    return rates


def main():
    parser = argparse.ArgumentParser(description=__doc__, formatter_class=argparse.RawDescriptionHelpFormatter)
    parser.add_argument("--rounds", type=int, default=3)
    given = parser.parse_args()
    subprocess.run([TOP / "dap", "run"], input=b"", capture_output=True, check=True)
    rates = peer_rates()
    print(f"{'kind':<10} {'reports':>8} {'seconds':>9} {'reports/s':>10} {'growth':>7} {'peer/s':>9} {'ratio':>6}")
    with tempfile.TemporaryDirectory() as folder:
        for name, words, value in KINDS:
            first = None
            for reports in SIZES:
                path = Path(folder) / f"{name}_{reports}"
                path.write_text(script(words, value, reports))
                seconds = best_time(path, given.rounds)
                each = seconds / reports
                first = first or each
                peer = rates.get(name)
                beside = f"{peer:>9} {peer * each:>6.1f}" if peer else f"{'-':>9} {'-':>6}"
                print(f"{name:<10} {reports:>8} {seconds:>9.3f} {1 / each:>10.0f} {each / first:>7.2f} {beside}", flush=True)


if __name__ == "__main__":
    main()
