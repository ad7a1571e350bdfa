#!/usr/bin/env bash
# The runs that the tests of session_core know are those that tools/runs.py plays, which stands apart from the crates.
source "$(dirname "${BASH_SOURCE[0]}")/common.bash"
command -v python3 >/dev/null 2>&1 || { echo 'runs: skipped: python3 is not here'; exit 0; }
tools/runs.py || faults=$((faults + 1))
ends runs "the runs of sessions in the tests are those of an implementation apart from the crates"
