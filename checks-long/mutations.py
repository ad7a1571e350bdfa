#!/usr/bin/env python3
"""Runs the program on jobs with bytes changed, by a fixed generator: it always ends as documented.

    mutations.py PROGRAM EXAMPLES [COUNT]

Each of COUNT jobs, 100,000 if not given, is an example with one to four bytes changed, put in, taken out or repeated,
for one of the commands. A run must end with a status of docs/job.md; where it refuses, its output is one line
that begins with `error: `, and the same bytes are refused alike by `check` where both refuse the job. Prints how
often each status came, and ends with status 1 if a run ended otherwise."""

import collections
import concurrent.futures
import glob
import os
import random
import subprocess
import sys

PROGRAM, EXAMPLES = sys.argv[1:3]
COUNT = int(sys.argv[3]) if len(sys.argv) > 3 else 100_000
COMMANDS = [
    "check", "shape", "events", "code", "eval", "walk 0", "walk 3", "attest --workers 2",
    "order kernel@ks<scanner@us", "choose ks:kernel=seal>bank;us:*=seal>*",
]
# A report, some session failed or a rule broken, and the refusals of what is read.
REPORTS = (0, 1)
REFUSALS = (5, 6, 7, 8, 9, 10, 14, 15)
# The bytes that JSON and phrases are made of come more often than others.
TELLING = b'{}[]",:0123456789abcdefghinorstuvx@+-<>~()\\ \n'


def changed(job, draw):
    bytes_ = bytearray(job)
    for _ in range(draw.choice((1, 1, 1, 2, 4))):
        at = draw.randrange(len(bytes_))
        byte = draw.choice(TELLING) if draw.random() < 0.7 else draw.randrange(256)
        kind = draw.randrange(4)
        if kind == 0:
            bytes_[at] = byte
        elif kind == 1:
            bytes_.insert(at, byte)
        elif kind == 2:
            del bytes_[at]
        else:
            end = min(len(bytes_), at + draw.randrange(1, 40))
            bytes_[at:at] = bytes_[at:end]
    return bytes(bytes_)


def ran(words, job):
    done = subprocess.run([PROGRAM, *words], input=job, stdout=subprocess.PIPE, timeout=60)
    return done.returncode, done.stdout


def fault(number, jobs):
    """The status of a run, and what is wrong with it."""
    draw = random.Random(number)
    job = changed(draw.choice(jobs), draw)
    command = draw.choice(COMMANDS)
    status, report = ran(command.split(), job)
    if status in REPORTS:
        return status, None if report.endswith(b"\n") and not report.startswith(b"error: ") else report
    one_line = report.startswith(b"error: ") and report.count(b"\n") == 1 and report.endswith(b"\n")
    if status not in REFUSALS or not one_line:
        return status, report
    checked = ran(["check"], job)
    return status, None if checked[0] == 0 or checked == (status, report) else checked[1]


def main():
    jobs = []
    for path in sorted(glob.glob(os.path.join(EXAMPLES, "*.json"))):
        with open(path, "rb") as source:
            jobs.append(source.read())
    statuses, wrong = collections.Counter(), 0
    with concurrent.futures.ThreadPoolExecutor(os.cpu_count()) as workers:
        for number, (status, what) in enumerate(workers.map(lambda number: fault(number, jobs), range(COUNT))):
            statuses[status] += 1
            if what is not None:
                wrong += 1
                print("job %d: status %d, %r" % (number, status, what[:80]))
    print("%d jobs; %s; %d wrong ends" % (
        COUNT, ", ".join("status %d: %d" % each for each in sorted(statuses.items())), wrong))
    sys.exit(1 if wrong else 0)


main()
