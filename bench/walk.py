#!/usr/bin/env python3
"""How much longer `walk 0` takes than `eval` of the same job, and how much memory each takes.

    python3 bench/walk.py [TIMES]

Each job is run TIMES times (5 if not given), and the least processor time counts. `walk 0` plays the
compiled code of each session on its machines, and is to take at most 1.3 times what `eval` takes; both
write the same answers and bundles, which are compared. `walk 1` is timed beside it."""

import os
import sys
import tempfile

import common

LIMIT = 1.3

PLACES = [common.place("bank", ["a"], asks=["q"]), common.place("q", ["a"])]
ARTEFACTS = [common.artefact(name, "a") for name in ("bank", "q")]

JOBS = {
    "seals": " -> ".join(["USM a -> CPY -> CPY -> CPY -> SIG"] * 200),
    "measurements": " -> ".join(["USM a"] * 250),
    "copies": " -> ".join(["CPY"] * 1000),
    "requests": " -> ".join(["@q [USM a]"] * 200),
    "branches": " -> ".join(["(CPY +~- USM a)"] * 200),
}


def main():
    times = common.times()
    slow = False
    with tempfile.TemporaryDirectory() as folder:
        for name, phrase in JOBS.items():
            job = os.path.join(folder, name)
            common.write_job(job, PLACES, ARTEFACTS, phrase)
            evaluated = common.run(["eval"], job, times)
            walked = common.run(["walk", "0"], job, times)
            drawn = common.run(["walk", "1"], job, times)
            for found in (walked, drawn):
                if common.without_traces(found.report) != evaluated.report:
                    sys.exit("%s: the answers or bundles differ" % name)
            ratio = walked.worked / evaluated.worked
            slow = slow or ratio > LIMIT
            print("%s: eval %.3f s, %.0f MB; walk 0 %.3f s, %.2f times as long, %.0f MB; walk 1 %.3f s, %.0f MB" % (
                name, evaluated.worked, evaluated.memory, walked.worked, ratio, walked.memory, drawn.worked, drawn.memory))
    print("%s than %g times as long" % ("more" if slow else "no more", LIMIT))
    sys.exit(1 if slow else 0)


main()
