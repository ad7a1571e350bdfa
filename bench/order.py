#!/usr/bin/env python3
"""How much longer `order TEXT` takes with 64 claims than `events` of the same job.

    python3 bench/order.py [TIMES]

The job has 256 sessions of 2,048 events each in a chain. Its first half measures `a0` to `a7`, its second
half `b0` to `b7`, and the 64 claims say that each of the first comes before each of the second. They hold in
every session, so each claim is looked at in each of them. Each command is run TIMES times (5 if not given),
and the least processor time counts: `order` is to take at most 5 times what `events` takes."""

import os
import sys
import tempfile

import common

LIMIT = 5
BLOCKS = 8
BLOCK = 256
MEASURED = 72
NAMES = 8


def phrase():
    """Eight blocks of 256 events: measurements, copies, and a NUL, which ends what is weighed."""
    parts = []
    for block in range(BLOCKS):
        letter = "a" if block < BLOCKS // 2 else "b"
        parts += ["USM %s%d" % (letter, number % NAMES) for number in range(MEASURED)]
        parts += ["CPY"] * (BLOCK - MEASURED - 1) + ["NUL"]
    return " -> ".join(parts)


def offers():
    return ["%s%d" % (letter, number) for letter in "ab" for number in range(NAMES)]


def claims():
    return ";".join("a%d@p<b%d@p" % (first, second) for first in range(NAMES) for second in range(NAMES))


def main():
    times = common.times()
    with tempfile.TemporaryDirectory() as folder:
        path = os.path.join(folder, "job")
        common.write_job(path, [common.place("p", offers())], [], phrase())
        listed = common.run(["events"], path, times)
        judged = common.run(["order", claims()], path, times)
    if judged.report.count(b" holds") != common.SESSIONS * NAMES * NAMES:
        sys.exit("not every claim holds: %r" % judged.report[:200])
    ratio = judged.worked / listed.worked
    print("events %.3f s, %.0f MB; order %.3f s, %.2f times as long, %.0f MB" % (
        listed.worked, listed.memory, judged.worked, ratio, judged.memory))
    print("%s than %g times as long" % ("more" if ratio > LIMIT else "no more", LIMIT))
    sys.exit(1 if ratio > LIMIT else 0)


main()
