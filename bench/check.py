#!/usr/bin/env python3
"""How much longer `check` takes for a job than for a job of as many bytes that is refused right after its
JSON was read.

    python3 bench/check.py [TIMES]

The jobs:

- `phrases`: 63 phrases of 1,024 events each in some 65,000 bytes, four megabytes in all: measurements with
  long names, and `NUL`. `blanks` has copies in their place, with blanks between them.
- `chains`: 256 sessions of a chain of 1,000 events each.
- `brackets`: 256 sessions with 64 brackets each, one in another. `marks` opens and closes as many again and
  again, over four megabytes.
- `books`: 4,096 references and 4,096 artefacts, all names of 32 bytes that differ only in their last four.
  References stand in an order that is neither theirs nor its reverse.

Each is compared with the same job with a number for `bundle`, which stands last, so that it is refused
there with nothing after it looked at. Blanks at the end make both of the same length. Each is run TIMES
times (5 if not given), and the least processor time counts. The greatest memory of `chains` is looked at,
too."""

import json
import os
import sys
import tempfile

import common

# References are numbered in steps of so many, round and round; it has no factor with their number.
STRIDE = 1597

# The most memory that the program may take for `chains`, in megabytes of 2^20 bytes.
MEMORY = 100


def long_name(index):
    return "n" * 28 + "%04d" % index


def place(name, offers):
    return {"name": name, "key": "00" * 16, "offers": offers}


def sessions(count, phrase):
    return [{"root": "bank", "nonce": "%032x" % index, "phrase": phrase} for index in range(count)]


def phrases():
    """`NUL` keeps the evidence light. With it and two arrows, a measurement takes 126 bytes."""
    names = "a" * 32, "b" * 32, "c" * 32, "d" * 12
    phrase = " -> ".join(["USM " + " ".join(names), "NUL"] * 512)
    return {"places": [place("bank", [names[0]])], "sessions": sessions(63, phrase)}


def blanks():
    phrase = " -> ".join(["CPY" + " " * 56] * 1024)
    return {"places": [place("bank", [])], "sessions": sessions(63, phrase)}


def chains():
    phrase = " -> ".join(["CPY"] * 1000)
    return {"places": [place("bank", [])], "sessions": sessions(256, phrase)}


def brackets():
    """Each bracket opens behind `NUL` and a measurement with the longest names."""
    names = [letter * 32 for letter in "abcde"]
    level = "NUL -> USM " + " ".join(names) + " -> ("
    phrase = level * 64 + "CPY" + ")" * 64
    return {"places": [place("bank", [names[0]])], "sessions": sessions(256, phrase)}


def marks():
    """Nearly every byte is a token."""
    phrase = " -> ".join(["(" * 64 + "CPY" + ")" * 64] * 118)
    return {"places": [place("bank", [])], "sessions": sessions(256, phrase)}


def books():
    bank = long_name(0)
    artefacts = [{"place": bank, "name": long_name(index), "bytes": "00"} for index in range(4096)]
    references = []
    for index in range(4096):
        last = long_name(index * STRIDE % 4096)
        args = [long_name(1), long_name(2), long_name(3), last]
        references.append({"place": bank, "target": bank, "asp": long_name(4), "args": args, "answer": "00"})
    session = {"root": bank, "nonce": "00" * 16, "phrase": "CPY"}
    job = {"places": [place(bank, [])], "artefacts": artefacts, "sessions": [session]}
    return {**job, "references": references}


# A job, how many times longer than the reading of its JSON it may take, if that is bounded, and how many
# sessions it has.
JOBS = [
    ("phrases", phrases, 3, 63),
    ("blanks", blanks, 3, 63),
    ("chains", chains, 5, 256),
    ("brackets", brackets, 5, 256),
    ("marks", marks, None, 256),
    ("books", books, 3, 1),
]


def written(folder, name, job, size=0):
    """A file with the job, and blanks at its end up to so many bytes."""
    path = os.path.join(folder, name)
    with open(path, "w") as sink:
        sink.write(json.dumps(job, separators=(",", ":")).ljust(size))
    return path


def bound(most):
    return "" if most is None else " (at most %d)" % most


def main():
    times = common.times()
    slow = False
    with tempfile.TemporaryDirectory() as folder:
        for title, made, most, count in JOBS:
            job = made()
            refused = written(folder, "refused", {**job, "bundle": 0})
            size = os.path.getsize(refused)
            accepted = written(folder, "accepted", job, size)
            if size > common.MOST_BYTES:
                sys.exit("%s: the job is %d bytes too long" % (title, size - common.MOST_BYTES))
            whole = common.run(["check"], accepted, times)
            if whole.report.count(b" ok events ") != count:
                sys.exit("%s: not every session was checked" % title)
            reading = common.run(["check"], refused, times, common.BAD_JOB)
            ratio = whole.worked / reading.worked
            print("%-8s %7d bytes: %.3f s, the reading of its JSON %.3f s, %.1f to 1%s, %.0f MB" % (
                title, size, whole.worked, reading.worked, ratio, bound(most), whole.memory))
            slow = slow or (most is not None and ratio > most)
            slow = slow or (title == "chains" and whole.memory > MEMORY)
    print("at least one job takes more than it may" if slow else "no job takes more than it may")
    sys.exit(1 if slow else 0)


main()
