#!/usr/bin/env bash
# docs/job.schema.json takes the example jobs and refuses jobs with a fault of form; the program agrees.
source "$(dirname "${BASH_SOURCE[0]}")/common.bash"
python3 -c 'import jsonschema' 2>/dev/null || { echo 'schema: skipped: python3-jsonschema is not here'; exit 0; }
use_built_program schema
python3 checks/schema.py "$CEREALSPIT_PROGRAM" || exit 1
