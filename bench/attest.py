#!/usr/bin/env python3
"""How much faster `attest` is with four workers than `walk 0`, and what one worker costs.

    python3 bench/attest.py [TIMES]

The job has 256 sessions of 1,000 events each, with 200 measurements and 200 seals. Each run is made TIMES
times (5 if not given), and the least wall time counts; the time of `check` of the same job, which is
reading and checking it, is taken away. With four workers `attest` is to be at least 2.5 times as fast as
`walk 0`, on four processors; with one it is to take at most 1.1 times as long. All write the same
answers and bundles, which are compared."""

import os
import sys
import tempfile

import common

FASTER = 2.5
SLOWER = 1.1
PHRASE = " -> ".join(["USM a -> CPY -> CPY -> CPY -> SIG"] * 200)


def main():
    times = common.times()
    with tempfile.TemporaryDirectory() as folder:
        path = os.path.join(folder, "job")
        common.write_job(path, [common.place("bank", ["a"])], [common.artefact("bank", "a")], PHRASE)
        read = common.run(["check"], path, times).took
        walked = common.run(["walk", "0"], path, times)
        alone = walked.took - read
        taken = {}
        for workers in (1, 2, 4):
            found = common.run(["attest", "--workers", str(workers)], path, times)
            if common.without_traces(found.report) != common.without_traces(walked.report):
                sys.exit("%d workers: the answers or bundles differ" % workers)
            taken[workers] = found.took - read
            print("%d workers: %.3f s beside %.3f s of walk 0, %.2f times as fast; %.3f s of processor time, %.0f MB" % (
                workers, taken[workers], alone, alone / taken[workers], found.worked, found.memory))
    missed = []
    if alone < FASTER * taken[4]:
        missed.append("four workers are less than %g times as fast" % FASTER)
    if taken[1] > SLOWER * alone:
        missed.append("one worker takes more than %g times as long" % SLOWER)
    print("; ".join(missed) if missed else "as fast as it is to be")
    sys.exit(1 if missed else 0)


main()
