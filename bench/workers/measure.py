"""Compares the processor time of sixteen workers with that of one.

    measure.py PROGRAM [TIMES]

The program runs as many workers as its word has bytes. Each number is run TIMES times (5 if not given), in turn, and
the least counts, since what else runs on the machine can only add to it."""

import os
import subprocess
import sys
import time

GREATEST = 1.2


def run(program, workers):
    """The wall time and the processor time of one run, in seconds."""
    begun = time.perf_counter()
    child = subprocess.Popen([program, "x" * workers])
    _, status, used = os.wait4(child.pid, 0)
    child.returncode = os.waitstatus_to_exitcode(status)
    if child.returncode != 0:
        sys.exit("%d workers: status %d" % (workers, child.returncode))
    return time.perf_counter() - begun, used.ru_utime + used.ru_stime


def main():
    program = sys.argv[1]
    times = int(sys.argv[2]) if len(sys.argv) > 2 else 5
    runs = {1: [], 16: []}
    for _ in range(times):
        for workers in runs:
            runs[workers].append(run(program, workers))
    worked = {workers: min(used for _, used in found) for workers, found in runs.items()}
    for workers, found in runs.items():
        print("%d workers: %.3f s of processor time, %.3f s in all" % (
            workers, worked[workers], min(took for took, _ in found)))
    ratio = worked[16] / worked[1]
    print("sixteen workers take %.2f times the processor time of one" % ratio)
    sys.exit(1 if ratio > GREATEST else 0)


main()
