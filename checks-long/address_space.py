#!/usr/bin/env python3
"""Runs the program with less and less address space: it is to end with its report or with want of memory.

    address_space.py PROGRAM EXAMPLES

The least address space is that with which `walk 0` of the smallest job ends well. From there on, in steps, 256
sessions of 1,024 copies are run by each command with so much. Each run must end with status 0, or with status 12
and its line alone. Prints how many runs ended in each way, and ends with status 1 if one ended otherwise."""

import json
import os
import resource
import subprocess
import sys
import tempfile

PROGRAM, EXAMPLES = sys.argv[1:]
MEGABYTE = 1 << 20
MOST = 512
REFUSED = (12, b"error: no memory\n")
KEY = "000102030405060708090a0b0c0d0e0f"
COMMANDS = [
    "check", "shape", "events", "code", "eval", "walk 0", "walk 3", "attest --workers 1", "attest --workers 4",
    "order a@bank<b@bank", "choose *:*=none>*",
]


def ran(words, path, megabytes):
    def bounded():
        resource.setrlimit(resource.RLIMIT_AS, (megabytes * MEGABYTE,) * 2)

    with open(path, "rb") as source:
        done = subprocess.run([PROGRAM, *words], stdin=source, stdout=subprocess.PIPE, preexec_fn=bounded, timeout=100)
    return done.returncode, done.stdout


def main():
    first = os.path.join(EXAMPLES, "first.json")
    least = next(size for size in range(1, MOST) if ran(["walk", "0"], first, size)[0] == 0)
    wrong = 0
    with tempfile.TemporaryDirectory() as folder:
        path = os.path.join(folder, "job")
        phrase = " -> ".join(["CPY"] * 1024)
        sessions = [{"root": "bank", "nonce": "%032x" % number, "phrase": phrase} for number in range(256)]
        with open(path, "w") as sink:
            json.dump({"places": [{"name": "bank", "key": KEY}], "sessions": sessions}, sink)
        for command in COMMANDS:
            ended = {"whole": 0, "no memory": 0}
            for size in range(least, MOST, 3):
                status, report = ran(command.split(), path, size)
                if status == 0:
                    ended["whole"] += 1
                elif (status, report) == REFUSED:
                    ended["no memory"] += 1
                else:
                    wrong += 1
                    print("%s with %d MB: status %d, %r" % (command, size, status, report[:80]))
            print("%s: %s" % (command, ", ".join("%d %s" % (count, name) for name, count in ended.items())))
    print("from %d to %d MB; %d wrong ends" % (least, MOST, wrong))
    sys.exit(1 if wrong else 0)


main()
