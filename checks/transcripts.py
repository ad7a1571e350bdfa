#!/usr/bin/env python3
"""Audits what was recorded: for each job that is given, and one of all phrases below, and each N from 0 to 19,
`audit` of each transcript that `record N` writes prints what `walk N` prints for its session, with its status,
numbered as in the job; and a transcript with a byte changed is refused, or is that of another run.

    checks/transcripts.py PROGRAM JOB..

It exits with status 1 if a case isn't so."""

import json
import subprocess
import sys

NUMBERS = range(20)
# `q` has no artefact `scan` at `us`, so the last two sessions fail.
PHRASES = [
    "CPY", "USM scan", "USM scan -> NUL", "USM a -> SIG -> HSH", "USM a +~- USM b", "USM a -<+ USM b", "USM a +<+ USM b -> SIG",
    "@q [USM scan -> SIG]", "@q [USM scan] +~+ USM a", "@q [@bank [USM a] +~+ @us [CPY]] -> HSH", "KIM us kernel -> SIG",
    "@q [USM a +~+ (USM b -<+ @bank [SIG])]", "USM a +~+ @us [USM scan]", "KIM us scan",
]
ARTEFACTS = [("bank", "a", "00"), ("bank", "b", "01"), ("bank", "scan", "02"), ("q", "a", "03"), ("q", "b", "04"), ("q", "scan", "05"),
             ("us", "kernel", "06")]
# The statuses of a report, of one with a failed session, and of a transcript that is not accepted.
GOOD, SOME_FAILED, BAD_TRANSCRIPT = 0, 1, 15


def run(program, words, job):
    """The status and the lines of the program's report."""
    done = subprocess.run([program, *words], input=json.dumps(job), capture_output=True, text=True, check=False)
    return done.returncode, done.stdout.splitlines()


def by_session(lines):
    """The lines of each session of a report of records."""
    parts = []
    for line in lines:
        if line.startswith("session "):
            parts.append([])
        parts[-1].append(line)
    return parts


def wanted_of(part):
    """The status of a session's record."""
    return GOOD if part[0].endswith(" done") else SOME_FAILED


def audited(program, job, session, transcript):
    """What `audit` says of a transcript as that of a session."""
    return run(program, ["audit"], {**job, "bundle": {"session": session, "bytes": transcript}})


def check_numbers(program, job, told):
    """Counts the audits of what is recorded, and those that differ."""
    cases, faults = 0, 0
    for number in NUMBERS:
        _, walked = run(program, ["walk", str(number)], job)
        _, recorded = run(program, ["record", str(number)], job)
        parts = by_session(walked)
        if len(parts) != len(recorded):
            print("%s: record %d: %d lines for %d sessions" % (told, number, len(recorded), len(parts)))
            faults += 1
            continue
        for session, part in enumerate(parts):
            cases += 1
            transcript = recorded[session].split()[-1]
            if audited(program, job, session, transcript) != (wanted_of(part), part):
                print("%s: audit of record %d, session %d: differs from walk" % (told, number, session))
                faults += 1
    return cases, faults


def check_bytes(program, job, told):
    """Counts the audits of the first transcript of `record 0` with each of its bytes changed, and those that
    are accepted with the record that the transcript has."""
    _, recorded = run(program, ["record", "0"], job)
    transcript = recorded[0].split()[-1]
    accepted = audited(program, job, 0, transcript)
    faults = 0
    for at in range(0, len(transcript), 2):
        changed = "%02x" % (int(transcript[at:at + 2], 16) ^ 1)
        found = audited(program, job, 0, transcript[:at] + changed + transcript[at + 2:])
        # Another pass or another order of the same entries is another history, which may have the same record.
        if found[0] not in (GOOD, SOME_FAILED, BAD_TRANSCRIPT) or (found[0] == BAD_TRANSCRIPT and len(found[1]) != 1):
            print("%s: byte %d changed: status %d" % (told, at // 2, found[0]))
            faults += 1
        if at < 10 and found == accepted:
            print("%s: byte %d changed: accepted" % (told, at // 2))
            faults += 1
    return len(transcript) // 2, faults


def job_of_phrases():
    """A job with a session for each of the phrases above."""
    names, offers = ["bank", "q", "us"], ["a", "b", "scan", "kernel"]
    return {
        "places": [{"name": name, "key": "%02x" % at * 16, "asks": names, "sees": names, "offers": offers} for at, name in enumerate(names, 1)],
        "artefacts": [{"place": place, "name": name, "bytes": held} for place, name, held in ARTEFACTS],
        "sessions": [{"root": "bank", "nonce": "%032x" % at, "phrase": phrase} for at, phrase in enumerate(PHRASES)],
    }


def main():
    program, jobs = sys.argv[1], sys.argv[2:]
    todo = [("phrases", job_of_phrases())]
    for path in jobs:
        with open(path, encoding="utf-8") as source:
            job = json.load(source)
        job.pop("bundle", None)
        todo.append((path, job))
    cases, faults = 0, 0
    for told, job in todo:
        for check in (check_numbers, check_bytes):
            more, wrong = check(program, job, told)
            cases += more
            faults += wrong
    print("transcripts: %d audits" % cases)
    sys.exit(1 if faults or not cases else 0)


main()
