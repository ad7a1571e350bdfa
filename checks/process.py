#!/usr/bin/env python3
"""What the program does where its standard streams, its words or its name are not as they usually are.

    process.py PROGRAM JOB

PROGRAM is run on JOB, a job that `walk 0` accepts. Each case that isn't as it is to be is printed, and the
status is then 1."""

import os
import subprocess
import sys
import threading

PROGRAM, JOB = sys.argv[1:]
WRONG_WORDS, READ_FAULT, TOO_LONG, WRITE_FAULT = 2, 3, 4, 11
faults = 0


def wants(case, got, wanted):
    global faults
    if got != wanted:
        faults += 1
        print("%s: wanted %r, got %r" % (case, wanted, got))


def ran(words, source=None, sink=subprocess.PIPE, name=b"cerealspit", before=None):
    """The status and the output of the program; a signal's status is below 0."""
    done = subprocess.run(
        [name, *words], executable=PROGRAM, stdin=source, stdout=sink, preexec_fn=before, timeout=100
    )
    return done.returncode, done.stdout


def on_job(words, **streams):
    with open(JOB, "rb") as source:
        return ran(words, source, **streams)


def closed(descriptor):
    return lambda: os.close(descriptor)


def fed(pieces):
    """The status and the output of `walk 0` whose input comes by a pipe in these pieces, until it stops reading."""
    ours, theirs = os.pipe()

    def feed():
        try:
            for piece in pieces:
                os.write(theirs, piece)
        except BrokenPipeError:
            pass
        finally:
            os.close(theirs)

    feeder = threading.Thread(target=feed)
    feeder.start()
    with os.fdopen(ours, "rb") as source:
        done = ran(["walk", "0"], source)
    feeder.join()
    return done


def endless():
    while True:
        yield b" " * 65536


def main():
    walk = ["walk", "0"]
    whole = on_job(walk)
    wants("the job", whole[0], 0)

    wants("a closed output", on_job(walk, sink=None, before=closed(1))[0], WRITE_FAULT)
    ours, theirs = os.pipe()
    os.close(ours)
    wants("a pipe whose reader went away", on_job(walk, sink=theirs)[0], WRITE_FAULT)
    os.close(theirs)
    with open("/dev/full", "wb") as full:
        wants("a full device", on_job(walk, sink=full)[0], WRITE_FAULT)

    wants("a closed input", ran(walk, before=closed(0)), (READ_FAULT, b"error: read fault\n"))
    folder = os.open("/", os.O_RDONLY)
    wants("a folder as input", ran(walk, folder), (READ_FAULT, b"error: read fault\n"))
    os.close(folder)
    wants("an endless input", fed(endless())[0], TOO_LONG)
    with open(JOB, "rb") as source:
        job = source.read()
    wants("an input of one byte at a time", fed(job[at:at + 1] for at in range(len(job))), whole)

    wants("a name that isn't UTF-8", on_job(walk, name=b"\xff\xfe"), whole)
    wants("an empty name", on_job(walk, name=b""), whole)
    wants("a word that isn't UTF-8", on_job([b"walk", b"\xff"])[0], WRONG_WORDS)
    sys.exit(1 if faults else 0)


main()
