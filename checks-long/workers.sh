#!/usr/bin/env bash
# Takes minutes, and is run by hand: 10,000 runs of a job by 1 to 16 workers, or as many as its one word says. Every
# trace is an order of its events, and all else is what one thread writes.
source "$(dirname "${BASH_SOURCE[0]}")/../checks/common.bash"
command -v python3 >/dev/null 2>&1 || { echo 'workers: skipped: python3 is not here'; exit 0; }
use_built_program workers
runs=${1:-10000}
checks-long/workers.py "$built" "$runs" || faults=$((faults + 1))
ends workers "in $runs runs of a job by 1 to 16 workers every trace is an order of its events"
