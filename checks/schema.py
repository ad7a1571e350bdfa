"""Compares docs/job.schema.json with the program on the example jobs and on jobs with one fault of form each."""

import copy
import glob
import json
import subprocess
import sys

import jsonschema

program = sys.argv[1]
with open("docs/job.schema.json", encoding="utf-8") as file:
    schema = json.load(file)
jsonschema.Draft202012Validator.check_schema(schema)
validator = jsonschema.Draft202012Validator(schema)


def job_with(path, value, base):
    """The job with the value at the path, or without it where the value is absent."""
    job = copy.deepcopy(base)
    at = job
    for step in path[:-1]:
        at = at[step]
    if value is None:
        del at[path[-1]]
    else:
        at[path[-1]] = value
    return job


def is_formed(job):
    """Whether the program finds no fault of form."""
    done = subprocess.run([program, "check"], input=json.dumps(job).encode(), stdout=subprocess.PIPE)
    return not done.stdout.startswith(b"error: job ")


with open("examples/first.json", encoding="utf-8") as file:
    first = json.load(file)
good = [json.load(open(path, encoding="utf-8")) for path in sorted(glob.glob("examples/*.json"))]
good += [job_with(["references"], [{"place": "q", "target": "bank", "asp": "a", "args": ["x", 1, 4294967295], "answer": "00Ff"}], first)]
FAULTS = [
    (["places"], None),
    (["places"], []),
    (["places"], first["places"] * 33),
    (["places", 0, "key"], "00" * 15),
    (["places", 0, "key"], "00" * 129),
    (["places", 0, "key"], "0g" * 16),
    (["places", 0, "name"], "Bank"),
    (["places", 0, "name"], "b" * 33),
    (["places", 0, "asks"], ["q"] * 65),
    (["places", 0, "offers"], "scan"),
    (["places", 0, "more"], 1),
    (["sessions", 0, "nonce"], "00" * 17),
    (["sessions", 0, "phrase"], 7),
    (["sessions"], []),
    (["artefacts"], [{"place": "q", "name": "a"}]),
    (["references"], [{"place": "q", "asp": "a", "args": [4294967296], "answer": ""}]),
    (["references"], [{"place": "q", "asp": "a", "args": [1.5], "answer": ""}]),
    (["references"], [{"place": "q", "asp": "a", "args": ["x"] * 5, "answer": ""}]),
    (["references"], [{"place": "q", "asp": "a", "answer": "00" * 1025}]),
    (["bundle"], {"bytes": ""}),
    (["bundle"], {"session": -1, "bytes": ""}),
]
bad = [job_with(path, value, first) for path, value in FAULTS]
wrong = 0
for wanted, jobs in ((True, good), (False, bad)):
    for at, job in enumerate(jobs):
        by_schema, by_program = validator.is_valid(job), is_formed(job)
        if (by_schema, by_program) != (wanted, wanted):
            wrong += 1
            print(f"schema: {'good' if wanted else 'faulty'} job {at}: the schema says {by_schema}, the program {by_program}")
print(f"schema: {len(good)} jobs taken and {len(bad)} refused, by the schema and by the program" if not wrong else f"schema: {wrong} jobs differ")
sys.exit(1 if wrong else 0)
