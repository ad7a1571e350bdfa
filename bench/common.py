"""What the benchmarks share: the jobs, where the program is, and how it is run and timed."""

import collections
import json
import os
import subprocess
import sys
import time

TOP = os.path.dirname(os.path.dirname(os.path.abspath(__file__)))
PROGRAM = os.path.join(TOP, "crates", "cerealspit", "out", "cerealspit")

# The most bytes that the program reads.
MOST_BYTES = 4_194_304

# The status of a job with a fault of form.
BAD_JOB = 6

# The most sessions that a job may have.
SESSIONS = 256

# The bytes of a block of SHA-256.
BLOCK = 64

# The artefact by which the program's own SHA-256 is timed, in bytes.
LARGE = 2_000_000

# The least time and the least processor time in seconds, the most memory in megabytes, and the report.
Runs = collections.namedtuple("Runs", "took worked memory report")


def place(name, offers, asks=()):
    """A place of a job, with a key that its name tells."""
    return {"name": name, "key": name.encode().ljust(16, b".").hex(), "asks": list(asks), "offers": list(offers)}


def artefact(place, name):
    """An artefact of 64 bytes."""
    return {"place": place, "name": name, "bytes": "5a" * 64}


def nonce_of(session):
    """The nonce of a session, from its number."""
    return session.to_bytes(16, "big")


def job_of(places, artefacts, phrases):
    """A job with a session for each phrase, at the first place, with the nonce of its number."""
    return json.dumps({
        "places": places,
        "artefacts": artefacts,
        "sessions": [
            {"root": places[0]["name"], "nonce": nonce_of(session).hex(), "phrase": phrase}
            for session, phrase in enumerate(phrases)
        ],
    }, separators=(",", ":"))


def write_job(path, places, artefacts, phrase):
    """Writes a job with as many sessions of one phrase as a job may have."""
    with open(path, "w") as sink:
        sink.write(job_of(places, artefacts, [phrase] * SESSIONS))
    if os.path.getsize(path) > MOST_BYTES:
        sys.exit("%s: the job is too long" % path)


def without_traces(report):
    """A report's lines but those of traces: what two schedules of a job have in common."""
    return b"\n".join(line for line in report.split(b"\n") if not line.startswith(b"trace"))


def run(words, job, times, wanted=0):
    """So many runs of the program on a job, each of which is to end with the status that is wanted.

    The report goes to a file, so that the program never waits for a reader. The least is taken, since
    what else runs on the machine can only add to it."""
    if not os.access(PROGRAM, os.X_OK):
        sys.exit("the program isn't built: run  ./cerealspit check < /dev/null  at the top first")
    took, worked, memory = [], [], []
    for _ in range(times):
        with open(job, "rb") as source, open(job + ".out", "wb") as sink:
            begun = time.perf_counter()
            program = subprocess.Popen([PROGRAM, *words], stdin=source, stdout=sink)
            _, status, used = os.wait4(program.pid, 0)
            program.returncode = os.waitstatus_to_exitcode(status)
            took.append(time.perf_counter() - begun)
        worked.append(used.ru_utime + used.ru_stime)
        memory.append(used.ru_maxrss / 1024)
        with open(job + ".out", "rb") as sink:
            report = sink.read()
        if program.returncode != wanted:
            sys.exit("%s: status %d, %r" % (" ".join(words), program.returncode, report[:100]))
    return Runs(min(took), min(worked), max(memory), report)


def written(folder, text):
    """The path of a job with this text, in a folder."""
    job = os.path.join(folder, "job")
    with open(job, "w") as sink:
        sink.write(text)
    return job


def blocks_of(message):
    """The blocks that are hashed for the code of a message: the key's two, the message's, the outer one."""
    return 3 + -(-(len(message) + 9) // BLOCK)


def block_seconds(folder, times):
    """What a block costs by the program's own SHA-256: it measures one large artefact in all sessions and in one."""
    host = place("host", ["a"])
    large = {"place": "host", "name": "a", "bytes": "00" * LARGE}
    many = run(["eval"], written(folder, job_of([host], [large], ["USM a"] * SESSIONS)), times).worked
    one = run(["eval"], written(folder, job_of([host], [large], ["USM a"])), times).worked
    return (many - one) / ((SESSIONS - 1) * LARGE / BLOCK)


def times():
    """How often each job is run: the script's one argument, or 5."""
    if len(sys.argv) == 1:
        return 5
    if len(sys.argv) == 2 and sys.argv[1].isdigit() and int(sys.argv[1]) > 0:
        return int(sys.argv[1])
    sys.exit("usage: %s [TIMES]" % sys.argv[0])
