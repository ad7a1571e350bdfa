#!/usr/bin/env python3
"""Refuses each allocation of the worked runs in turn, until a run meets none that it is to refuse.

    allocations.py PROGRAM LIBRARY EXAMPLES

LIBRARY is refuse.c as a shared library, EXAMPLES the folder with bank.json. Each run in which an allocation was
refused must end with status 12 and write the line of want of memory alone, or do without it and end with its own
status and whole report: a thread that can't be started is done without, and so is the scratch memory of a sort.
Prints how many allocations each run met and how many it did without, and ends with status 1 if a run ended
otherwise."""

import json
import os
import subprocess
import sys
import tempfile

PROGRAM, LIBRARY, EXAMPLES = sys.argv[1:]
NOT_KNOWN = (2, 13)
REFUSED = (12, b"error: no memory\n")
KEY = "000102030405060708090a0b0c0d0e0f"

# The measurements of two jobs, in the order of their events, as references name them.
SCAN = [{"place": "bank", "asp": "scan"}]
BANK = [
    {"place": "ks", "target": "us", "asp": "kernel"},
    {"place": "us", "asp": "scanner"},
    {"place": "us", "asp": "files", "args": ["etc"]},
]


def job(phrase, **more):
    """A job of one session at the bank, which offers what the phrase may measure."""
    place = {"name": "bank", "key": KEY, "offers": ["a", "b", "scan"]}
    artefacts = [{"place": "bank", "name": name, "bytes": "00"} for name in place["offers"]]
    session = {"root": "bank", "nonce": KEY, "phrase": phrase}
    return json.dumps({"places": [place], "artefacts": artefacts, "sessions": [session], **more})


def ran(words, path, number=None):
    """The status and the output, and whether an allocation was refused."""
    with tempfile.TemporaryDirectory() as folder:
        mark = os.path.join(folder, "mark")
        env = {} if number is None else {"LD_PRELOAD": LIBRARY, "REFUSED": str(number), "MARK": mark}
        with open(path, "rb") as source:
            done = subprocess.run([PROGRAM, *words], stdin=source, stdout=subprocess.PIPE, env=env, timeout=60)
        return done.returncode, done.stdout, os.path.exists(mark)


def without_traces(report):
    return [line for line in report.split(b"\n") if not line.startswith(b"trace")]


def refuses_all(words, path):
    """How many allocations a run makes, without how many of them it ends as ever, and without how many wrongly."""
    status, report, _ = ran(words, path)
    number, spared, wrong = 0, 0, 0
    while True:
        number += 1
        ended, wrote, met = ran(words, path, number)
        if not met:
            return number - 1, spared, wrong
        if (ended, wrote) == REFUSED:
            continue
        # The order in which workers take turns is seen in the traces of `attest` alone.
        alike = without_traces(wrote) == without_traces(report) if words[0] == "attest" else wrote == report
        if ended == status and alike:
            spared += 1
        else:
            wrong += 1
            print("%s without allocation %d: status %d, %r" % (" ".join(words), number, ended, wrote[:80]))


def with_bundle(path, report, measurements):
    """The job with the bundle or transcript of a report, and its answers as the references of these measurements."""
    words = report.decode().split()
    with open(path) as source:
        given = json.load(source)
    answers = [words[at + 2] for at, word in enumerate(words) if word == "answer"]
    given["references"] = [{**of, "answer": answer} for of, answer in zip(measurements, answers)]
    behind = "bundle" if "bundle" in words else "transcript"
    given["bundle"] = {"session": 0, "bytes": words[words.index(behind) + 1]}
    return given


def runs(folder):
    """Each run: its words and the file of its job."""

    def written(name, text):
        path = os.path.join(folder, name)
        with open(path, "w") as sink:
            sink.write(text)
        return path

    arms = written("arms", job("USM a +~- USM b"))
    scan = written("scan", job("USM scan"))
    bank = os.path.join(EXAMPLES, "bank.json")
    yield ["walk", "0"], written("copy", job("CPY"))
    yield ["walk", "0"], arms
    yield ["walk", "3"], arms
    for words in ("attest --workers 4", "eval", "check", "shape", "events", "code", "record 0", "wirewalk 0"):
        yield words.split(), bank
    yield ["order", "kernel@ks<scanner@us;scanner@us<kernel@ks"], bank
    yield ["choose", "ks:kernel=seal>bank;us:*=seal>*"], bank
    for words, maker, path, expected in (
        ("appraise", "eval", scan, SCAN), ("appraise", "eval", bank, BANK), ("upgrade", "eval", bank, BANK),
        ("audit", "record 0", bank, BANK),
    ):
        status, report, _ = ran(maker.split(), path)
        if status not in NOT_KNOWN:
            given = with_bundle(path, report, expected)
            yield [words], written("%s-%s" % (words, os.path.basename(path)), json.dumps(given))


def main():
    wrong = 0
    with tempfile.TemporaryDirectory() as folder:
        for words, path in runs(folder):
            name = "%s of %s" % (" ".join(words), os.path.basename(path))
            if ran(words, path)[0] in NOT_KNOWN:
                print("%s: not a command of this program" % name)
                continue
            met, spared, faults = refuses_all(words, path)
            wrong += faults
            print("%s: %d allocations, %d done without, %d wrong ends" % (name, met, spared, faults))
    sys.exit(1 if wrong else 0)


main()
