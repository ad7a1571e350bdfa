#!/usr/bin/env python3
"""How much stack the greatest phrases take. No command and no test is to need more than 1,024 KiB.

    python3 bench/stack.py

Runs each command of the program on the longest chain and on the deepest nesting with the longest chain
that goes with it, and each test of a crate whose name begins with `the_longest`, as far as they are
built (`rt run`, `rt test`, each with `--backend rattle` for the other compiler), and prints the least
stack, in KiB, with which each ends as it does with 64 MiB. The least is found by halving, so what the
system puts below a program's stack, the words and the environment, is in it."""

import glob
import json
import os
import re
import resource
import subprocess
import sys
import tempfile

import common

LIMIT = 1024
EVENTS = 2048
BRACKETS = 64
SEALS = 1024
COMMANDS = [
    "check", "shape", "events", "code", "eval", "walk 0", "walk 3", "record 0", "attest --workers 1", "attest --workers 4",
    "order a@bank<b@bank", "choose bank:*=none>*",
]
KEY = "000102030405060708090a0b0c0d0e0f"


def ends(command, job, kib):
    """The status and the output of a program with so much stack."""

    def bounded():
        resource.setrlimit(resource.RLIMIT_STACK, (kib * 1024, kib * 1024))

    with open(job, "rb") as source:
        done = subprocess.run(
            command, stdin=source, capture_output=True, preexec_fn=bounded, env={}
        )
    return done.returncode, done.stdout


def least(command, job=os.devnull):
    """The least stack that is enough, in steps of 4 KiB."""
    wanted = ends(command, job, 65536)
    if wanted[0] != 0:
        sys.exit("%s: status %d" % (" ".join(command), wanted[0]))
    low, high = 0, 65536
    while high - low > 4:
        middle = (low + high) // 8 * 4
        if ends(command, job, middle) == wanted:
            high = middle
        else:
            low = middle
    return high


def chain(events):
    """A chain of so many events: seals, and copies once there are as many seals as evidence may nest."""
    return " -> ".join(["SIG"] * SEALS + ["CPY"] * (events - SEALS))


def jobs(folder):
    """Jobs of one session whose phrases have the most events, with as many seals as evidence may nest."""
    phrases = {
        "longest": chain(EVENTS),
        "deepest": "@bank [" * BRACKETS + chain(EVENTS - 2 * BRACKETS) + "]" * BRACKETS,
    }
    place = {"name": "bank", "key": KEY, "asks": ["bank"]}
    for name, phrase in phrases.items():
        session = {"root": "bank", "nonce": KEY, "phrase": phrase}
        path = os.path.join(folder, name)
        with open(path, "w") as job:
            json.dump({"places": [place], "sessions": [session]}, job)
        yield name, path


def tests():
    """The tests of the greatest phrases, of the crates whose tests are built."""
    for program in sorted(glob.glob(os.path.join(common.TOP, "crates", "*", "out", "*_tests"))):
        listed = subprocess.run([program, "--list"], capture_output=True, text=True).stdout
        for test in re.findall(r"\S*\bthe_longest\w*", listed):
            yield os.path.basename(program)[: -len("_tests")], test, [program, test]


def main():
    rows = []
    with tempfile.TemporaryDirectory() as folder:
        if os.access(common.PROGRAM, os.X_OK):
            for name, job in jobs(folder):
                for words in COMMANDS:
                    took = least([common.PROGRAM, *words.split(" ")], job)
                    rows.append((took, words + ", the " + name))
        for crate, test, command in tests():
            rows.append((least(command), crate + ", " + test))
    for took, what in rows:
        print("%6d KiB  %s" % (took, what))
    over = [what for took, what in rows if took > LIMIT]
    for what in over:
        print("over %d KiB: %s" % (LIMIT, what))
    sys.exit(1 if over or not rows else 0)


main()
