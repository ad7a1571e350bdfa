#!/usr/bin/env python3
"""How much longer `eval` takes than what it hashes: 256 phrases of 1,000 events with 200 seals each. The
evaluation is to take at most 1.3 times what hashing alone takes.

    python3 bench/eval.py [TIMES]

Each job is run TIMES times (5 if not given), and the least processor time counts. Each phrase is 200 times a
measurement, three copies and a seal, so that each seal is over some 76 bytes more than the one before.

What hashing alone takes is found in two ways.
- By the program's own SHA-256: it measures one large artefact in 256 sessions and in one; the difference
  is the time of 255 hashes of it, and so the time of a block of 64 bytes. The blocks of all seals are
  counted: two of the key, those of the message, and that of the outer hash.
- By Python's hmac over the same messages. It uses the processor's own instructions for SHA-256 where
  there are any, so it says what could be reached and not what the program's SHA-256 costs.

What `check` takes for the same job, which is reading and checking it, is shown beside and taken away:
the rest is gathering the answers, evaluating, and writing the report. The bundles are compared with
those computed here."""

import hashlib
import hmac
import sys
import tempfile
import time

import common

PHRASES = 256
SEALS = 200
PART = "USM a -> CPY -> CPY -> CPY -> SIG"
EVENTS_OF_PART = 5

PLACE = b"bank"
KEY = bytes(range(16))
ARTEFACT = b"\x5a" * 64

LIMIT = 1.3


def job_of(artefact, phrases):
    """A job of one place that measures this artefact by its name `a`, with a session for each phrase."""
    return common.job_of(
        [{"name": PLACE.decode(), "key": KEY.hex(), "offers": ["a"]}],
        [{"place": PLACE.decode(), "name": "a", "bytes": artefact.hex()}],
        phrases,
    )


def evaluated(session):
    """The bundle of a session, the blocks that are hashed for its seals, and the seconds of processor time that
    hmac took."""
    answer = hashlib.sha256(b"a\0" + ARTEFACT).digest()
    nonce = common.nonce_of(session)
    value = b"\x01" + nonce
    blocks = 0
    seconds = 0.0
    for part in range(SEALS):
        first = part * EVENTS_OF_PART
        last = first + EVENTS_OF_PART - 1
        value = b"\x02" + first.to_bytes(4, "big") + len(answer).to_bytes(2, "big") + answer + value
        message = b"\x53" + bytes([len(PLACE)]) + PLACE + nonce + last.to_bytes(4, "big") + value
        begun = time.process_time()
        seal = hmac.digest(KEY, message, "sha256")
        seconds += time.process_time() - begun
        blocks += common.blocks_of(message)
        value = b"\x04" + last.to_bytes(4, "big") + seal + value
    return b"CPLB\x01" + len(value).to_bytes(4, "big") + value, blocks, seconds


def compared(title, took, hashing):
    print("%s: %.3f s; the evaluation takes %.2f times as long" % (title, hashing, took / hashing))


def main():
    times = common.times()
    wanted = [evaluated(session) for session in range(PHRASES)]
    blocks = sum(row[1] for row in wanted)
    phrase = " -> ".join([PART] * SEALS)
    with tempfile.TemporaryDirectory() as folder:
        job = common.written(folder, job_of(ARTEFACT, [phrase] * PHRASES))
        reading = common.run(["check"], job, times).worked
        evaluated_all = common.run(["eval"], job, times)
        whole = evaluated_all.worked
        found = [line[7:] for line in evaluated_all.report.split(b"\n") if line.startswith(b"bundle ")]
        if found != [row[0].hex().encode() for row in wanted]:
            sys.exit("the bundles aren't those computed here")
        block = common.block_seconds(folder, times)
    took = whole - reading
    own = blocks * block
    print("%d phrases of %d events with %d seals: %d blocks hashed" % (PHRASES, SEALS * EVENTS_OF_PART, SEALS, blocks))
    print("eval %.3f s, check %.3f s: the evaluation %.3f s" % (whole, reading, took))
    compared("hashing by the program's own SHA-256", took, own)
    compared("hashing by Python's hmac", took, sum(row[2] for row in wanted))
    slow = took > LIMIT * own
    print("%s than %g times the first" % ("more" if slow else "no more", LIMIT))
    sys.exit(1 if slow else 0)


main()
