#!/usr/bin/env python3
"""Runs a job by 1 to 16 workers, so often as it is told, and reads each report.

    checks-long/workers.py PROGRAM RUNS

Each trace is to have every event of its session once, and each of them behind those that the table below says; all
other lines are to be those of `walk 0`. The table is written by hand from the meaning of phrases, and owes nothing to
the program."""

import itertools
import json
import subprocess
import sys

# Each phrase with the events that stand directly before its events, by their numbers.
PHRASES = [
    ("CPY", [[]]),
    ("USM a +~- USM b", [[], [0], [0], [1, 2]]),
    ("USM a -<+ USM b", [[], [0], [1], [2]]),
    ("USM a +~- USM b -> USM scan", [[], [0], [0], [2], [1, 3]]),
    ("(USM a +~+ (USM b +~+ USM scan)) -> HSH", [[], [0], [0], [2], [2], [3, 4], [1, 5], [6]]),
    ("@q [USM scan -> SIG] +~+ @q [USM scan]", [[], [0], [1], [2], [3], [0], [5], [6], [4, 7]]),
    ("(USM a +~- USM b) +~+ @q [CPY +~+ USM scan]",
     [[], [0], [1], [1], [2, 3], [0], [5], [6], [6], [7, 8], [9], [4, 10]]),
]
SESSIONS = 14


def job():
    bank = {"name": "bank", "key": "00" * 16, "asks": ["q"], "offers": ["a", "b", "scan"]}
    q = {"name": "q", "key": "11" * 16, "offers": ["scan"]}
    return json.dumps({
        "places": [bank, q],
        "artefacts": [
            {"place": place, "name": name, "bytes": "5a"}
            for place, name in (("bank", "a"), ("bank", "b"), ("bank", "scan"), ("q", "scan"))
        ],
        "sessions": [
            {"root": "bank", "nonce": session.to_bytes(16, "big").hex(), "phrase": phrase_of(session)[0]}
            for session in range(SESSIONS)
        ],
    }).encode()


def phrase_of(session):
    return PHRASES[session % len(PHRASES)]


def lines_of(program, words, source):
    found = subprocess.run([program, *words], input=source, stdout=subprocess.PIPE, timeout=60)
    if found.returncode != 0:
        sys.exit("%s: status %d, %r" % (" ".join(words), found.returncode, found.stdout[:100]))
    return found.stdout.decode().splitlines()


def is_order(trace, before):
    """Whether this is an order of all events, each behind those that stand before it."""
    happened = set()
    for event in trace:
        if event in happened or event >= len(before) or not happened.issuperset(before[event]):
            return False
        happened.add(event)
    return len(happened) == len(before)


def parts_of(report):
    """The traces of a report, and its other lines."""
    traces = [[int(event) for event in line.split()[1:]] for line in report if line.startswith("trace ")]
    return traces, [line for line in report if not line.startswith("trace ")]


def main():
    program, runs = sys.argv[1], int(sys.argv[2])
    source = job()
    first, wanted = parts_of(lines_of(program, ["walk", "0"], source))
    if len(first) != SESSIONS:
        sys.exit("walk 0 has %d traces" % len(first))
    seen = [set() for _ in range(SESSIONS)]
    for _, workers in zip(range(runs), itertools.cycle(range(1, 17))):
        traces, others = parts_of(lines_of(program, ["attest", "--workers", str(workers)], source))
        if others != wanted or len(traces) != SESSIONS:
            sys.exit("%d workers: the answers or bundles differ" % workers)
        for session, trace in enumerate(traces):
            if not is_order(trace, phrase_of(session)[1]):
                sys.exit("%d workers, session %d: %s is no order of its events" % (workers, session, trace))
            seen[session].add(tuple(trace))
    print("orders seen of each session: %s" % " ".join(str(len(orders)) for orders in seen))


main()
