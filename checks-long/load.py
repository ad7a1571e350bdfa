#!/usr/bin/env python3
"""What `load N` says of the sessions of a made job is so of the same sessions given as a job and run by workers.

    checks-long/load.py PROGRAM [N..]

The job of N (0 and 7 if none is given) is drawn by tools/made_job.py. It is run by `attest` with 1, 4 and 16 workers;
the bundles that each run writes have the digest, and the sessions the counts, that `load N` writes."""

import hashlib
import json
import os
import subprocess
import sys

sys.path.insert(0, os.path.join(os.path.dirname(os.path.dirname(os.path.abspath(__file__))), "tools"))
from made_job import made_job  # noqa: E402


def run(program, words, given):
    return subprocess.run([program, *words], input=given, stdout=subprocess.PIPE, check=True).stdout.decode().splitlines()


def main():
    program = sys.argv[1]
    numbers = [int(word) for word in sys.argv[2:]] or [0, 7]
    failed = 0
    for number in numbers:
        job = made_job(number)
        text = json.dumps(job).encode()
        said = dict(line.split() for line in run(program, ["load", str(number)], b""))
        events = sum(int(line.split()[4]) for line in run(program, ["check"], text) if line.startswith("session"))
        for workers in (1, 4, 16):
            lines = run(program, ["attest", "--workers", str(workers)], text)
            bundles = [bytes.fromhex(line.split()[1]) for line in lines if line.startswith("bundle ")]
            found = {
                "load": str(number),
                "sessions": str(len(job["sessions"])),
                "events": str(events),
                "done": str(len(bundles)),
                "accepted": str(len(job["sessions"])),
                "digest": hashlib.sha256(b"".join(bundles)).hexdigest(),
            }
            if found != said:
                failed += 1
                print("load %d, %d workers: %s for %s" % (number, workers, found, said))
    print("load: %d of %d runs differ from what load says" % (failed, 3 * len(numbers)))
    sys.exit(failed > 0)


if __name__ == "__main__":
    main()
