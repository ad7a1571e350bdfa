#!/usr/bin/env python3
"""How much longer `appraise` takes than what it hashes, for two bundles, and how much memory it takes beside `check`.

    python3 bench/appraise.py [TIMES]

Each job is run TIMES times (5 if not given), and the least processor time counts.

- `chain`: a value of 262,144 bytes, which is the greatest, with 233 answers of 1,024 bytes and 592 seals, one in
  another. At most 1.3 times what hashing alone takes.
- `doubled`: three such answers, and then six times a sequential branch that gives all of the evidence to both of its
  arms, and a seal over the pair. So the value has 63 seals, the inner ones in each copy. At most 2 times.

The blocks of all seals are counted: two of the key, those of the message, and that of the outer hash. What a block
costs is found by the program's own SHA-256, from the measurements of a large artefact. What `check` takes for the same
job, which is reading and checking it, is taken away: the rest is the appraisal and its report. So is the memory of
`check`: what `appraise` takes beside it is to be less than 2 MB. Each bundle is to be accepted, with as many lines as
it has parts with a verdict."""

import hmac
import json
import sys
import tempfile

import common

ANSWER = b"\xa5" * 1_024
SEALS = 592
ANSWERS = 233
DOUBLINGS = 6

HOST = "host"
KEY = HOST.encode().ljust(16, b".")
NONCE = common.nonce_of(1)

# The most bytes that a value may have.
MOST_VALUE = 262_144

# The most memory that an appraisal may take beside what `check` takes, in megabytes.
MOST_MEMORY = 2


class Making:
    """The phrase of a chain, the bytes of its value, and what is hashed and said when these are appraised."""

    def __init__(self):
        self.parts = []
        self.events = 0
        self.value = b"\x01" + NONCE
        self.blocks = 0
        self.verdicts = 1

    def event(self):
        self.events += 1
        return (self.events - 1).to_bytes(4, "big")

    def measure(self):
        self.parts.append("USM a")
        self.value = b"\x02" + self.event() + len(ANSWER).to_bytes(2, "big") + ANSWER + self.value
        self.verdicts += 1

    def double(self):
        """Both arms of a branch get all of the evidence, and copy it. Each has its own seals, which are appraised."""
        self.parts.append("(CPY +<+ CPY)")
        for _ in ("split", "left arm", "right arm", "join"):
            self.event()
        self.value = b"\x06" + self.value + self.value
        self.blocks *= 2
        self.verdicts *= 2

    def seal(self):
        self.parts.append("SIG")
        event = self.event()
        message = b"\x53" + bytes([len(HOST)]) + HOST.encode() + NONCE + event + self.value
        self.value = b"\x04" + event + hmac.digest(KEY, message, "sha256") + self.value
        self.blocks += common.blocks_of(message)
        self.verdicts += 1

    def job(self):
        """The job with the bundle, and the reference of its answers."""
        bundle = b"CPLB\x01" + len(self.value).to_bytes(4, "big") + self.value
        return json.dumps({
            "places": [common.place(HOST, ["a"])],
            "artefacts": [],
            "sessions": [{"root": HOST, "nonce": NONCE.hex(), "phrase": " -> ".join(self.parts)}],
            "references": [{"place": HOST, "asp": "a", "answer": ANSWER.hex()}],
            "bundle": {"session": 0, "bytes": bundle.hex()},
        }, separators=(",", ":"))


def chain():
    made = Making()
    for seal in range(SEALS):
        if seal * ANSWERS // SEALS < (seal + 1) * ANSWERS // SEALS:
            made.measure()
        made.seal()
    if len(made.value) != MOST_VALUE:
        sys.exit("the chain's value has %d bytes" % len(made.value))
    return made


def doubled():
    made = Making()
    for _ in range(3):
        made.measure()
    for _ in range(DOUBLINGS):
        made.double()
        made.seal()
    return made


def judged(title, made, limit, block, folder, times):
    """Whether the bundle is appraised within its limits."""
    job = common.written(folder, made.job())
    reading = common.run(["check"], job, times)
    whole = common.run(["appraise"], job, times)
    lines = whole.report.split(b"\n")
    if lines[-2] != b"accepted" or len(lines) != made.verdicts + 3:
        sys.exit("%s: %d lines, which end in %r" % (title, len(lines), lines[-2:]))
    took = whole.worked - reading.worked
    hashing = made.blocks * block
    beside = whole.memory - reading.memory
    print("%s: %d bytes, %d blocks hashed; appraise %.4f s, check %.4f s: the appraisal %.4f s, hashing %.4f s; "
          "%.2f times as long (%g at most); %.1f MB beside what check takes"
          % (title, len(made.value), made.blocks, whole.worked, reading.worked, took, hashing, took / hashing, limit, beside))
    return took <= limit * hashing and beside < MOST_MEMORY


def main():
    times = common.times()
    with tempfile.TemporaryDirectory() as folder:
        block = common.block_seconds(folder, times)
        good = [
            judged("chain", chain(), 1.3, block, folder, times),
            judged("doubled", doubled(), 2, block, folder, times),
        ]
    sys.exit(0 if all(good) else 1)


main()
