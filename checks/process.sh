#!/usr/bin/env bash
# The program ends as it should on streams that are closed, full, endless or slow, and whatever its name is.
source "$(dirname "${BASH_SOURCE[0]}")/common.bash"
use_built_program process
command -v python3 >/dev/null 2>&1 || { echo 'process: skipped: python3 is not here'; exit 0; }
python3 checks/process.py "$built" examples/first.json || faults=$((faults + 1))
ends process 'closed, full, endless and slow streams, and names of any bytes'
