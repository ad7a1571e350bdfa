#!/usr/bin/env bash
# What `record N` writes of the examples, for N from 0 to 19, is audited to what `walk N` writes.
source "$(dirname "${BASH_SOURCE[0]}")/common.bash"
use_built_program transcripts
command -v python3 >/dev/null 2>&1 || { echo 'transcripts: skipped: python3 is not here'; exit 0; }
python3 checks/transcripts.py "$built" examples/first.json examples/arms.json examples/bank.json examples/transcript.json || faults=$((faults + 1))
ends transcripts 'what is recorded of the examples is audited to what a walk writes'
