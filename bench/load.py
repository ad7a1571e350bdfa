#!/usr/bin/env python3
"""How much longer `load N` takes than `walk 0` of the same sessions given as a job, and the appraisals of their bundles.

    python3 bench/load.py [TIMES]

`load 7` makes its job, plays its sessions one after the other, appraises their bundles and hashes them. It is to take
at most 1.5 times what `walk 0` takes for the job that tools/made_job.py draws, with what `appraise` takes for each
bundle that `walk 0` wrote; what `check` takes for the same job of one session, which reads as much, is taken off each of
these. Each is run TIMES times (5 if not given), and the least processor time counts."""

import json
import os
import sys
import tempfile

import common

sys.path.insert(0, os.path.join(common.TOP, "tools"))
from made_job import made_job  # noqa: E402

LIMIT = 1.5
NUMBER = 7


def written(folder, job):
    path = os.path.join(folder, "job.json")
    with open(path, "w") as sink:
        json.dump(job, sink)
    return path


def appraisals(folder, job, bundles, times):
    """The processor time of the appraisals of all bundles, without what is read for each."""
    took = 0.0
    for session, bundle in zip(job["sessions"], bundles):
        path = written(folder, {**job, "sessions": [session], "bundle": {"session": 0, "bytes": bundle}})
        took += max(0.0, common.run(["appraise"], path, times).worked - common.run(["check"], path, times).worked)
    return took


def main():
    times = common.times()
    job = made_job(NUMBER)
    with tempfile.TemporaryDirectory() as folder:
        walk = common.run(["walk", "0"], written(folder, job), times)
        lines = walk.report.decode().splitlines()
        bundles = [line.split()[1] for line in lines if line.startswith("bundle ")]
        if len(bundles) != len(job["sessions"]):
            sys.exit("load: a session failed")
        load = common.run(["load", str(NUMBER)], written(folder, {}), times)
        appraised = appraisals(folder, job, bundles, times)
    ratio = load.worked / (walk.worked + appraised)
    print("load %d %.3f s, walk 0 %.3f s, appraise %.3f s: %.2f to 1, to be at most %.1f; memory %.0f MB, of walk 0 %.0f MB"
          % (NUMBER, load.worked, walk.worked, appraised, ratio, LIMIT, load.memory, walk.memory))
    sys.exit(ratio > LIMIT)


if __name__ == "__main__":
    main()
